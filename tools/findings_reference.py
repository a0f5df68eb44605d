"""What `dnr read CARRIER --raw` says of an area: a second reading, written from docs/RULES.md and docs/COMMAND.md alone, for tools/findings.py.

`read` gives a Reading of an area; `messages` the messages that standard error must have of it, each with the members of its JSON object. Names are
judged by the words of RULES N5 themselves: an octet is bad where nothing that begins so can be completed to an acceptable name.
"""
import dataclasses
import functools
import pathlib
import re

import show

ROOT = pathlib.Path(__file__).resolve().parents[1]
WORDS = {int(line.split(" ")[0]): line.split(" ", 1)[1] for line in (ROOT / "tests" / "command" / "words.txt").read_text().splitlines()}
CARRIERS = {1: "dhcp4", 2: "dhcp6", 3: "ra", 4: "ike4", 5: "ike6"}
CODES, WIDTHS = {1: 162, 2: 144, 3: 144, 4: 27, 5: 28}, {1: 4, 2: 16, 3: 16, 4: 4, 5: 16}
BEFORE = {1: 0, 2: 4, 3: 2, 4: 4, 5: 4}  # octets of a block before its body: of the option's header, none of joined data (RULES W11)
MOST_OCTETS, MOST_RECORDS, MOST_ADDRESSES, MOST_PARAMETERS, MOST_PADDING = 40960, 16, 63, 1024, 7

NO_END = "it has no end: the name stops before its last octet 0"
EMPTY, POINTER = "it is empty", "a compression pointer"
LABEL, LONGER = "a label of more than 63 octets", "it is longer than a name may be"
FOLLOW, UNDERSCORE = "octets follow its end", "an underscore"
HYPHEN = "a hyphen at the beginning or end of a label"
DOT = "a dot at the beginning or end, or two side by side"
OTHER = "an octet that is no letter, digit or hyphen"
REASONS = {"wire": (NO_END, EMPTY, POINTER, LABEL, LONGER, FOLLOW, UNDERSCORE, HYPHEN, OTHER),
           "text": (EMPTY, LABEL, LONGER, UNDERSCORE, HYPHEN, DOT, OTHER)}


class Refused(Exception):
    """A reading that is refused, with its number."""

    def __init__(self, number):
        super().__init__(number)
        self.number = number


class Discarded(Exception):
    """A block with a fault: its number, its octet in the area, and what is said after the words of the number."""

    def __init__(self, fault, octet, tail=""):
        super().__init__(fault, octet, tail)
        self.fault, self.octet, self.tail = fault, octet, tail


@dataclasses.dataclass
class Part:
    """Octets, and the place of each in the area; the last place is where they end."""
    octets: bytes
    places: list

    def __len__(self):
        return len(self.octets)

    def number(self, at, width):
        return int.from_bytes(self.octets[at:at + width], "big")

    def part(self, start, end):
        return Part(self.octets[start:end], self.places[start:end + 1])

    @property
    def start(self):
        return self.places[0]

    @property
    def end(self):
        return self.places[-1]


@dataclasses.dataclass
class Reading:
    """A reading that is done: records as (priority, record of a sheet), and what was left out, as (block, Discarded or a dropped address)."""
    found: int
    discarded: int
    fault: int
    place: int
    records: list
    findings: list


# ---- from an area to blocks (RULES W1 to W8)


def options(carrier, area):
    """Code, and first and last place of the body, of each option."""
    at, width = 0, 1 if carrier in (1, 3) else 2
    while at < len(area):
        if carrier == 1 and area[at] in (0, 255):
            if area[at] == 255:
                return
            at += 1
            continue
        body = at + 2 * width
        length = int.from_bytes(area[at + width:body], "big")
        end = at + 8 * length if carrier == 3 else body + length
        if body > len(area) or end > len(area) or end < body:
            raise Refused(3)
        code = int.from_bytes(area[at:at + width], "big")
        yield code % 32768 if carrier > 3 else code, body, end
        at = end


def blocks(carrier, area):
    """The blocks of an area; in carrier 1 the data of all own options, joined, are one (RULES W4)."""
    own = [(start, end) for code, start, end in options(carrier, area) if code == CODES[carrier]]
    if carrier == 1 and own:
        places = [place for start, end in own for place in range(start, end)]
        return [Part(bytes(area[place] for place in places), places + [own[-1][1]])]
    return [Part(area[start:end], list(range(start, end + 1))) for start, end in own]


# ---- from a block to fields (RULES B1 to B7)


class Fields:
    """Takes the fields of a body one after another; fault 20 where one runs past its end."""

    def __init__(self, body):
        self.body, self.at = body, 0

    def take(self, n):
        if self.at + n > len(self.body):
            raise Discarded(20, self.body.end)
        self.at += n
        return self.body.part(self.at - n, self.at)

    def number(self, width):
        return self.take(width).number(0, width)

    def left(self):
        return len(self.body) - self.at

    def rest(self):
        return self.take(self.left())


def instances(joined):
    """The bodies of the instances in the joined data of carrier 1; there is one at least."""
    fields = Fields(joined)
    while True:
        yield fields.take(fields.number(2))
        if not fields.left():
            return


def taken(carrier, body):
    """The fields of a body by name: name only where there are no addresses. length is that of the addresses, or their number."""
    fields = Fields(body)
    found = {"priority": fields.take(2), "padding": body.part(len(body), len(body)), "lifetime": 0, "addresses": None}
    if carrier > 3:
        count, length = fields.take(1), fields.number(1)
        hosts = fields.take(count.number(0, 1) * WIDTHS[carrier])
        return {**found, "length": count, "addresses": hosts, "name": fields.take(length), "parameters": fields.rest()}
    width = 1 if carrier == 1 else 2
    if carrier == 3:
        found["lifetime"] = fields.number(4)
    found["name"] = fields.take(fields.number(width))
    if fields.left() < (8 if carrier == 3 else 1):
        return {**found, "padding": fields.rest()}
    found["length"] = fields.take(width)
    found["addresses"] = fields.take(found["length"].number(0, width))
    if carrier == 3:
        return {**found, "parameters": fields.take(fields.number(2)), "padding": fields.rest()}
    return {**found, "parameters": fields.rest()}


# ---- names (RULES N1 to N5)

TEXT_LABEL = re.compile(rb"[A-Za-z0-9]([A-Za-z0-9-]{0,61}[A-Za-z0-9])?")


def labels(wire):
    """The labels of a name in wire form, or None where it is none by its lengths."""
    found, at = [], 0
    while at < len(wire) and 0 < wire[at] < 64:
        found.append(wire[at + 1:at + 1 + wire[at]])
        at += 1 + wire[at]
    return found if at + 1 == len(wire) and wire[at] == 0 else None


def acceptable(form, name):
    parts = labels(name) if form == "wire" else name.split(b".")
    most = 255 if form == "wire" else 253
    return bool(parts) and len(name) <= most and all(TEXT_LABEL.fullmatch(part) for part in parts)


def begins(form, first):
    """Whether some acceptable name begins with these octets: the shortest that could is tried."""
    if form == "text":
        return not first or acceptable(form, first) or acceptable(form, first + b"a")
    at = 0
    while at < len(first) and first[at] != 0:
        at += 1 + first[at]
    whole = first + b"a" * (at - len(first))
    return not first or acceptable(form, whole) or acceptable(form, whole + b"\0")


@functools.cache
def first_bad(form, name):
    """The place of the first bad octet (RULES N5)."""
    return next((i for i in range(len(name)) if not begins(form, name[:i + 1])), len(name))


def wire_reason(name, i):
    """Why the octet at i is bad, in wire form."""
    at = 0
    while at < i and name[at] != 0:
        at += 1 + name[at]
    if i == len(name):
        return NO_END if name else EMPTY
    if at < i and name[at] == 0:
        return FOLLOW
    if at != i:
        return {"_": UNDERSCORE, "-": HYPHEN}.get(chr(name[i]), OTHER)
    return EMPTY if name[i] == 0 else POINTER if name[i] >= 192 else LABEL if name[i] >= 64 else LONGER


def text_reason(name, i):
    """Why the octet at i is bad, in text: the first reason that holds, in the order of docs/COMMAND.md. Only the octets next to it are looked at."""
    before, octet, after = (name[max(at, 0):at + 1] for at in (i - 1, i, i + 1))
    edge = (b"", b".")
    if not name:
        return EMPTY
    if octet == b"_":
        return UNDERSCORE
    if not re.fullmatch(rb"[A-Za-z0-9.-]?", octet):
        return OTHER
    if octet == b"-" and (before in edge or after in edge) or octet in edge and before == b"-":
        return HYPHEN
    if octet in edge and (before in edge or after in edge):
        return DOT
    least = i + 2 if octet in (b".", b"-") else i + 1  # neither ends a name
    return LONGER if least > 253 else LABEL


def check_name(carrier, name):
    form = "text" if carrier > 3 else "wire"
    if acceptable(form, name.octets):
        return
    i = first_bad(form, name.octets)
    raise Discarded(22, name.places[i], "; " + (text_reason if form == "text" else wire_reason)(name.octets, i))


# ---- addresses and parameters (RULES A1, P1 to P8)


def dropped(address):
    if len(address) == 4:
        return address[0] == 127 or 224 <= address[0] <= 239
    return address[0] == 255 or address == bytes(15) + b"\1"


def hosts(carrier, field):
    """Each address with its place."""
    width = WIDTHS[carrier]
    return [(field.octets[at:at + width], field.places[at]) for at in range(0, len(field), width)]


def check_addresses(carrier, length, field):
    if len(field) == 0 or len(field) % WIDTHS[carrier]:
        raise Discarded(23, length.start)


def check_sizes(carrier, field, parameters):
    if len(field) > MOST_ADDRESSES * WIDTHS[carrier]:
        raise Discarded(24, field.places[MOST_ADDRESSES * WIDTHS[carrier]])
    if len(parameters) > MOST_PARAMETERS:
        raise Discarded(24, parameters.places[MOST_PARAMETERS])


def key_tail(key):
    return f"; parameter {show.key_name(key)}"


def listed(field):
    """Key, value and place of each parameter; fault 26 at the first that is cut short or whose key is out of order."""
    found, at, before = [], 0, -1
    while at < len(field):
        key, end = field.number(at, 2), at + 4 + field.number(at + 2, 2)
        if at + 4 > len(field) or end > len(field):
            raise Discarded(26, field.places[at])
        if key <= before or key == 65535:
            raise Discarded(26, field.places[at], key_tail(key))
        found.append((key, field.octets[at + 4:end], field.places[at]))
        before, at = key, end
    return found


def right_value(key, value, keys):
    """Whether a value is as RULES P4 to P7 say, beside parameters with these keys."""
    if key == 0:
        wanted = [int.from_bytes(value[i:i + 2], "big") for i in range(0, len(value), 2)]
        return len(value) % 2 == 0 and bool(wanted) and wanted == sorted(set(wanted)) and 0 not in wanted and set(wanted) <= keys
    if key == 1:
        at = 0
        while at < len(value) and value[at] > 0:
            at += 1 + value[at]
        return bool(value) and at == len(value)
    return {2: value == b"" and 1 in keys, 3: len(value) == 2}.get(key, True)


def check_parameters(field):
    found = listed(field)
    keys = {key for key, _, _ in found}
    for key, _, place in found:
        if key in (4, 6):
            raise Discarded(27, place, key_tail(key))
    for key, value, place in found:
        if not right_value(key, value, keys):
            raise Discarded(28, place, key_tail(key))


# ---- from a block to records, and an area to a reading (RULES T1 to T4, S2, S5)


def record(carrier, body):
    """Priority, record of a sheet and dropped addresses of one body."""
    fields = taken(carrier, body)
    padding, priority, addresses = fields["padding"], fields["priority"], fields["addresses"]
    for i, octet in enumerate(padding.octets):
        if octet != 0 or i == MOST_PADDING:
            raise Discarded(29, padding.places[i])
    if priority.number(0, 2) == 0:
        raise Discarded(21, priority.start)
    check_name(carrier, fields["name"])
    name, full, left_out = fields["name"].octets.decode("ascii"), None, []
    if addresses is not None:
        check_addresses(carrier, fields["length"], addresses)
        check_sizes(carrier, addresses, fields["parameters"])
        kept = [address for address, _ in hosts(carrier, addresses) if not dropped(address)]
        left_out = [found for found in hosts(carrier, addresses) if dropped(found[0])]
        if not kept:
            raise Discarded(25, addresses.start)
        check_parameters(fields["parameters"])
        full = kept, fields["parameters"].octets
    if carrier < 4:
        name = b".".join(labels(fields["name"].octets)).decode("ascii")
    return priority.number(0, 2), show.record(priority.number(0, 2), fields["lifetime"], name, full), left_out


def read(carrier, area):
    """The Reading of an area; Refused where there is none."""
    if len(area) > MOST_OCTETS:
        raise Refused(2)
    found = blocks(carrier, area)
    reading = Reading(len(found), 0, 0, 0, [], [])
    for k, block in enumerate(found, 1):
        try:
            made = [record(carrier, body) for body in (instances(block) if carrier == 1 else [block])]
        except Discarded as fault:
            reading.discarded += 1
            if not reading.fault:
                reading.fault = fault.fault
                reading.place = BEFORE[carrier] + block.places.index(fault.octet) if fault.fault == 22 else 0
            reading.findings.append((k, fault))
            continue
        reading.records += [(priority, octets) for priority, octets, _ in made]
        reading.findings += [(k, address) for _, _, left_out in made for address in left_out]
    if len(reading.records) > MOST_RECORDS:
        raise Refused(4)
    reading.records.sort(key=lambda pair: pair[0])
    return reading


# ---- what is said of it (docs/COMMAND.md, "Result" and "JSON")


def hint(carrier, area):
    """The end of a message where another carrier would find a resolver."""
    for other, name in CARRIERS.items():
        try:
            if other != carrier and read(other, area).records:
                return f"; read as {name} a resolver is found"
        except Refused:
            pass
    return ""


def refused(carrier, area, number):
    """The message of a refusal, and its members."""
    return f"refused, {number}: {WORDS[number]}{hint(carrier, area) if number == 3 else ''}", {"status": 1, "number": number}


def messages(carrier, area, reading):
    """Each message that is said of a reading that is done, without the name of the input, and its members."""
    if reading.found == 0:
        kind = "attribute" if carrier > 3 else "option"
        yield f"no {kind} {CODES[carrier]} in {len(area)} octets{hint(carrier, area)}", {}
    if reading.discarded:
        end = hint(carrier, area) if reading.discarded == reading.found else ""
        yield f"{reading.discarded} of {reading.found} blocks discarded{end}", {}
    for block, finding in reading.findings:
        if isinstance(finding, Discarded):
            said = f"block {block}, octet {finding.octet}: discarded, {finding.fault}: {WORDS[finding.fault]}{finding.tail}"
            yield said, {"number": finding.fault, "block": block, "octet": finding.octet}
        else:
            address, octet = finding
            yield f"block {block}, octet {octet}: address {show.address(address)} dropped: multicast or loopback", {"block": block, "octet": octet}


def numbers(reading):
    """The line of text after the sheet."""
    at = f" at octet {reading.place} of its block" if reading.fault == 22 else ""
    return f"found {reading.found}, discarded {reading.discarded}" + (f", fault {reading.fault}{at}" if reading.fault else "")


def sheet(carrier, reading):
    return show.sheet_of(carrier, [octets for _, octets in reading.records])
