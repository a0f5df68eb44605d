#!/usr/bin/env python3
"""Shows record sheets without the program dnr, and compares it with dnr on sheets of its own making.

show.py SHEET            print the text of a sheet
show.py --json SHEET     print its JSON
show.py --compare DNR    run DNR on the sheets of `sheets`, as `show`, `write` and `read`; ends in 'N passed, M failed'

It is written from the text of `dnr --help`'s rules (docs/COMMAND.md) and from docs/RULES.md, not from crates/showing.
"""
import ipaddress
import json
import random
import subprocess
import sys

CARRIERS = {1: "DHCPv4", 2: "DHCPv6", 3: "router advertisement", 4: "IKEv2 ENCDNS_IP4", 5: "IKEv2 ENCDNS_IP6"}
OWN = {1: "option 162", 2: "option 144", 3: "option 144", 4: "attribute 27", 5: "attribute 28"}
KEYS = {0: "mandatory", 1: "alpn", 2: "no-default-alpn", 3: "port", 7: "dohpath"}
FOREVER = 2**32 - 1


# ---- a sheet taken apart


class Octets:
    def __init__(self, octets):
        self.octets = octets

    def take(self, n):
        part, self.octets = self.octets[:n], self.octets[n:]
        assert len(part) == n
        return part

    def number(self, n):
        return int.from_bytes(self.take(n), "big")


def labels(wire):
    rest, found = Octets(wire), []
    while (n := rest.number(1)) != 0:
        found.append(rest.take(n).decode("ascii"))
    assert not rest.octets
    return found


def address(octets):
    parsed = ipaddress.ip_address(octets)
    if parsed.version == 6 and parsed.ipv4_mapped:
        return "::ffff:" + str(parsed.ipv4_mapped)
    return str(parsed)


def parameters(field):
    rest = Octets(field)
    while rest.octets:
        key = rest.number(2)
        yield key, rest.take(rest.number(2))


def taken(sheet):
    """The carrier and the records, each (priority, lifetime, name, None or (addresses, parameters))."""
    rest = Octets(sheet)
    assert rest.take(3) == b"RSV" and rest.number(2) == 1
    carrier, count, records = rest.number(1), rest.number(1), []
    width = 4 if carrier in (1, 4) else 16
    for _ in range(count):
        priority, lifetime, mode = rest.number(2), rest.number(4), rest.number(1)
        name, full = ".".join(labels(rest.take(rest.number(1)))), None
        if mode == 1:
            hosts = [address(rest.take(width)) for _ in range(rest.number(1))]
            full = hosts, list(parameters(rest.take(rest.number(2))))
        records.append((priority, lifetime, name, full))
    assert not rest.octets
    return carrier, records


# ---- how it is shown


def escaped(octets):
    text = ""
    for b in octets:
        if chr(b) in '\\",':
            text += "\\" + chr(b)
        elif 33 <= b <= 126:
            text += chr(b)
        else:
            text += f"\\{b:03}"
    return text


def key_name(key):
    return KEYS.get(key, f"key{key}")


def value(key, octets):
    """The value as JSON has it: a list, None, a number or a string."""
    if key == 0:
        return [key_name(int.from_bytes(octets[i : i + 2], "big")) for i in range(0, len(octets), 2)]
    if key == 1:
        rest, ids = Octets(octets), []
        while rest.octets:
            ids.append(escaped(rest.take(rest.number(1))))
        return ids
    if key == 2:
        return None
    if key == 3:
        return int.from_bytes(octets, "big")
    return escaped(octets)


def value_text(shown):
    if shown is None:
        return ""
    return ",".join(shown) if isinstance(shown, list) else str(shown)


def lifetime_text(lifetime):
    if lifetime == FOREVER:
        return "never expires"
    return f"{lifetime} s" + (", no longer to be used" if lifetime == 0 else "")


def text(sheet):
    carrier, records = taken(sheet)
    lines = [f"{CARRIERS[carrier]} (carrier {carrier}), {len(records)} record" + ("" if len(records) == 1 else "s")]

    def line(label, shown):
        lines.append(f"    {label:<15} {shown}".rstrip(" "))

    for priority, lifetime, name, full in records:
        lines += ["", name]
        line("priority", priority)
        if carrier == 3:
            line("lifetime", lifetime_text(lifetime))
        if full is None:
            lines.append("    name only")
            continue
        for host in full[0]:
            line("address", host)
        for key, octets in full[1]:
            line(key_name(key), value_text(value(key, octets)))
    return "".join(line + "\n" for line in lines)


def tree(sheet):
    carrier, records = taken(sheet)
    shown = []
    for priority, lifetime, name, full in records:
        record = {"name": name, "priority": priority}
        if carrier == 3:
            record["lifetime"] = lifetime
        record["nameOnly"] = full is None
        if full is not None:
            record["addresses"] = full[0]
            record["parameters"] = [{"key": k, "name": key_name(k), "value": value(k, v)} for k, v in full[1]]
        shown.append(record)
    return {"carrier": carrier, "carrierName": CARRIERS[carrier], "records": shown}


def line_of_json(found):
    return json.dumps(found, separators=(",", ":"), ensure_ascii=True) + "\n"


# ---- sheets to compare on


def wire_of(name):
    return b"".join(bytes([len(label)]) + label.encode() for label in name.split(".")) + b"\0"


def parameter(key, octets):
    return key.to_bytes(2, "big") + len(octets).to_bytes(2, "big") + octets


def record(priority, lifetime, name, full):
    wire = wire_of(name)
    head = priority.to_bytes(2, "big") + lifetime.to_bytes(4, "big")
    octets = head + bytes([full is not None, len(wire)]) + wire
    if full is not None:
        hosts, field = full
        octets += bytes([len(hosts)]) + b"".join(hosts) + len(field).to_bytes(2, "big") + field
    return octets


def sheet_of(carrier, records):
    return b"RSV\0\1" + bytes([carrier, len(records)]) + b"".join(records)


class Maker:
    """Makes sheets that writing accepts, from a seed."""

    def __init__(self, seed):
        self.random = random.Random(seed)

    def label(self):
        letters = "abcdefghijklmnopqrstuvwxyzABCDEFGHIJKLMNOPQRSTUVWXYZ0123456789"
        n = self.random.choice([1, 1, 2, 3, 8, 63])
        middle = "".join(self.random.choice(letters + "--") for _ in range(max(n - 2, 0)))
        return (self.random.choice(letters) + middle + self.random.choice(letters))[:n] if n > 1 else self.random.choice(letters)

    def name(self):
        found = self.label()
        for _ in range(self.random.choice([0, 1, 1, 2, 3, 60])):
            longer = found + "." + self.label()
            if len(longer) > 253:
                break
            found = longer
        return found

    def host(self, width):
        while True:
            if width == 16 and self.random.random() < 0.5:
                octets = b"".join(self.random.choice([b"\0\0", b"\0\0", b"\xff\xff", self.random.randbytes(2)]) for _ in range(8))
            else:
                octets = self.random.randbytes(width)
            if width == 16 and self.random.random() < 0.1:
                octets = bytes(10) + b"\xff\xff" + octets[12:]
            usable = not (octets[0] == 127 or 224 <= octets[0] < 240) if width == 4 else octets[0] != 255 and octets != bytes(15) + b"\1"
            if usable:
                return octets

    def protocols(self):
        ids = [b"dot", b"h2", b"h3", b"doq", b'a,b"\\c', b" ", b"\x7f\x80\xff\0"]
        listed = [self.random.choice(ids + [self.random.randbytes(self.random.randint(1, 12))]) for _ in range(self.random.randint(1, 4))]
        return b"".join(bytes([len(i)]) + i for i in listed)

    def field(self, most):
        """Parameters of at most `most` octets."""
        made, chosen = [], set(self.random.sample([1, 2, 3, 5, 7, 8, 100, 4096, 65280, 65534], self.random.randint(0, 6)))
        for key in sorted(chosen | {1} if 2 in chosen else chosen):  # key 2 stands beside key 1 (RULES P6)
            octets = self.random.randbytes(self.random.choice([0, 0, 1, 5, 40]))
            if key == 1:
                octets = self.protocols()
            if key == 2:
                octets = b""
            if key == 3:
                octets = self.random.randbytes(2)
            if key == 7:
                octets = self.random.choice([b"", b"/dns-query{?dns}", octets])
            made.append((key, octets))
        keys = [key for key, _ in made]
        if keys and self.random.random() < 0.5:
            listed = sorted(self.random.sample(keys, self.random.randint(1, len(keys))))
            made.insert(0, (0, b"".join(key.to_bytes(2, "big") for key in listed)))
        found = b"".join(parameter(key, octets) for key, octets in made)
        return found if len(found) <= most else b""

    def full(self, carrier):
        width = 4 if carrier in (1, 4) else 16
        hosts = [self.host(width) for _ in range(self.random.choice([1, 1, 2, 3, 63]))]
        return hosts, self.field(1024 if carrier != 3 else 500)

    def sheet(self, carrier, count):
        priorities = sorted(self.random.choice([1, 2, 3, 255, 256, 65535, self.random.randint(1, 65535)]) for _ in range(count))
        records = []
        for priority in priorities:
            lifetime = self.random.choice([0, 1, 3600, FOREVER - 1, FOREVER]) if carrier == 3 else 0
            bare = carrier <= 3 and self.random.random() < 0.3
            records.append(record(priority, lifetime, self.name(), None if bare else self.full(carrier)))
        return sheet_of(carrier, records)


def largest(carrier):
    """Sheets of sixteen records as large as they may be: values of one parameter, and parameters without values."""
    width = 4 if carrier in (1, 4) else 16
    hosts = [bytes([32] * 2 + [i] * (width - 2)) for i in range(1, 64)]
    long_name = ".".join(["a" * 63] * 3 + ["a" * 61])
    room = 1024 if carrier != 3 else (2040 - 14 - 255 - 63 * 16) // 4 * 4
    for field in (parameter(65280, bytes(room - 4)), b"".join(parameter(60000 + i, b"") for i in range(room // 4))):
        yield sheet_of(carrier, [record(65535, FOREVER if carrier == 3 else 0, long_name, (hosts, field))] * 16)


def sheets(seed=1, rounds=60):
    maker = Maker(seed)
    for carrier in CARRIERS:
        yield sheet_of(carrier, [])
        yield from largest(carrier)
        for n in range(rounds):
            yield maker.sheet(carrier, [1, 1, 2, 3, 16][n % 5])
        # each octet in a value, and in a protocol's name
        every = parameter(1, b"".join(bytes([1, b]) for b in range(256))) + parameter(65280, bytes(range(256)))
        if carrier != 3:
            yield sheet_of(carrier, [record(1, 0, "a", ([bytes([32] * (4 if carrier in (1, 4) else 16))], every))])


# ---- the comparison


def run(program, octets, *words):
    done = subprocess.run([program, *words, "--raw"], input=octets, stdout=subprocess.PIPE, stderr=subprocess.PIPE)
    return done.returncode, done.stdout, done.stderr


def compare(program):
    passed = failed = 0

    def same(what, got, wanted, said=""):
        nonlocal passed, failed
        if got == (0, wanted, said.encode()):
            passed += 1
        else:
            failed += 1
            print(f"show.py: {what}: FAILED: {sheet.hex()[:200]}: {got[0]} {got[1][:300]} {got[2][:200]}")

    for sheet in sheets():
        carrier, records = taken(sheet)
        found = min(len(records), 1) if carrier == 1 else len(records)
        same("show", run(program, sheet, "show"), text(sheet).encode())
        same("show --json", run(program, sheet, "show", "--json"), line_of_json(tree(sheet)).encode())
        area = run(program, sheet, "write", "-o", "-")[1]
        printed = "".join(area[i : i + 16].hex(" ") + "\n" for i in range(0, len(area), 16))
        same("write", run(program, sheet, "write"), printed.encode())
        said = "" if records else f"dnr: standard input: no {OWN[carrier]} in 0 octets\n"
        same("read -o", run(program, area, "read", str(carrier), "-o", "-"), sheet, said)
        same("read", run(program, area, "read", str(carrier)), (text(sheet) + f"found {found}, discarded 0\n").encode(), said)
        whole = {"found": found, "discarded": 0, "fault": 0, "place": 0, "sheet": tree(sheet)}
        objects = line_of_json(whole) + (line_of_json({"message": said[len("dnr: "):-1]}) if said else "")
        same("read --json", run(program, area, "read", "--json", str(carrier)), objects.encode(), said)
    print(f"{passed} passed, {failed} failed")
    return failed == 0


def main(words):
    if len(words) == 2 and words[0] == "--compare":
        return compare(words[1])
    as_json = words[:1] == ["--json"]
    if len(words) != 1 + as_json:
        sys.exit(__doc__)
    with open(words[-1], "rb") as file:
        sheet = file.read()
    sys.stdout.write(line_of_json(tree(sheet)) if as_json else text(sheet))
    return True


if __name__ == "__main__":
    sys.exit(0 if main(sys.argv[1:]) else 1)
