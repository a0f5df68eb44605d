"""Reads the input forms of the command (docs/FORMS.md) in plain Python, for comparison: read(data, flag) gives the octets or raises Refused(line) or TooLong.

Written from the description of the forms alone. Each form is tried on its own. A text that none reads is at fault in the line at which the
last of them fails: up to there it could have become one of the forms. tcpdump's dump and a C array, which may have other text before them, are
tried where the first line is of no other form.
"""
import re

BLANKS = " \t\r"
B = "[ \t\r]"
H = "[0-9a-fA-F]"
# A character of the declaration of an array's length, before its =.
WORD = r"[A-Za-z0-9_\[\]]"
# Escape and form feed are characters of text: a terminal's colours and the ends of pages stand in texts.
COLOURS = {12, 27}
CONTROLS = (set(range(32)) | {127}) - {9, 10, 13} - COLOURS
MOST = 40960
# An offset of more digits than this has is not even read.
LAST = 0xFFFFF


class Refused(Exception):
    """The number of the line at fault. `shown`: an offset or a text column is at fault, so that the text is a dump and nothing else."""

    def __init__(self, line, shown=False):
        super().__init__(line)
        self.line = line
        self.shown = shown


class TooLong(Exception):
    """More octets than the command takes."""


def numbered(text, first=1):
    """The lines that are not blank, with their numbers."""
    return [(k, line) for k, line in enumerate(text.split("\n"), first) if line.strip(BLANKS)]


def last(text):
    """The last line that is not blank: where a text that ends too early is at fault."""
    return max([k for k, _ in numbered(text)], default=1)


# ---- lists


def plain(text):
    """Digits and blanks: groups of two digits, or one group a line."""
    out, pairs, single = "", True, True
    for k, line in numbered(text):
        groups = re.split(B + "+", line.strip(BLANKS))
        pairs = pairs and all(len(group) == 2 for group in groups)
        single = single and len(groups) == 1
        if not all(re.fullmatch(f"({H}{H})+", group) for group in groups) or not (single or pairs):
            raise Refused(k)
        out += "".join(groups)
    return bytes.fromhex(out)


def separated(text, mark, group):
    """Groups with one mark between two; a line may end in one."""
    if not re.match(f"({H}|{B}|\n)*{mark}", text):
        raise Refused(numbered(text)[0][0])
    out = []
    for k, line in numbered(text):
        line = line.strip(BLANKS)
        parts = [part.strip(BLANKS) for part in line.removesuffix(mark).split(mark)]
        if not all(re.fullmatch(group, part) for part in parts):
            raise Refused(k)
        out += [int(part, 16) for part in parts]
    return bytes(out)


def prefixed(text, first=1, wide=True):
    """Groups 0x and one or two digits, blanks or one comma between; or, where `wide`, one group of an even number of digits."""
    out, alone = [], None
    for k, line in numbered(text, first):
        line = line.strip(BLANKS).removesuffix(",").rstrip(BLANKS)
        for part in re.split(f"{B}*,{B}*|{B}+", line):
            if alone is not None or not re.fullmatch(f"0[xX]{H}+", part):
                raise Refused(k)
            digits = part[2:]
            if len(digits) > 2:
                if not wide or out or len(digits) % 2:
                    raise Refused(k)
                alone = bytes.fromhex(digits)
            else:
                out.append(int(digits, 16))
    return bytes(out) if alone is None else alone


def escaped(text):
    r"""Octets \xHH, with blanks and double quotes between."""
    out = ""
    for k, line in numbered(text):
        if not re.fullmatch(f'({B}|"|\\\\x{H}{H})*', line):
            raise Refused(k)
        out += re.sub(f'{B}|"|\\\\x', "", line)
    return bytes.fromhex(out)


def array(text):
    """A C array; after it a semicolon, and the number of its octets."""
    start = text.index("{") + 1
    first = text.count("\n", 0, start) + 1
    inner, close, rest = text[start:].partition("}")
    octets = prefixed(inner, first, wide=False)
    if not close:
        raise Refused(last(text))
    followed(rest, first + inner.count("\n"), len(octets))
    return octets


def followed(rest, first, count):
    """What stands after the brace, which is in line `first`: nothing, or `;`, or `; WORDS = N;` with that count, and blanks around each of these."""
    rest, at = rest.rstrip(BLANKS + "\n"), 0
    for step, wanted in enumerate((";", f"{WORD}({WORD}|{B}|\n)*", "=", "[0-9]+", ";", "$")):
        if at == len(rest) and step < 2:
            return
        at = re.compile(f"({B}|\n)*").match(rest, at).end()
        found = re.compile(wanted).match(rest, at)
        if not found or (wanted == "[0-9]+" and int(found[0]) != count):
            raise Refused(first + rest.count("\n", 0, at))
        at = found.end()


# ---- dumps


def shown(octets, blank=" "):
    """The text column of these octets."""
    return "".join(chr(c) if 32 < c < 127 else blank if c == 32 else "." for c in octets)


def column(tail, octets, blank=" "):
    """Whether what follows the octets is their text: the blanks at its ends cannot be told from those around it."""
    return tail.strip(BLANKS) == shown(octets, blank).strip(" ")


def between(tail, octets, opening, closing):
    """Whether what follows is their text between these marks."""
    return tail.strip(BLANKS) == opening + shown(octets) + closing


class Kind:
    """How a dump writes offset and octets, what holds its text column, which lines may be without (given whether one before had it), and whether an offset
    alone ends it."""

    def __init__(self, offset, groups, held, bare, ends=False):
        self.offset = re.compile(f"{B}*{offset}(?={B}|$)")
        self.groups = re.compile(f"{B}+({groups})(?={B}|$)")
        self.held, self.bare, self.ends = held, bare, ends

    def row(self, k, rest, columns):
        """The octets after the offset of line k, and whether a text column has been seen."""
        found = self.groups.match(rest)
        tail = rest[found.end():] if found else "?"
        if tail.strip(BLANKS) and not re.match(B + B, tail):
            raise Refused(k)
        octets = bytes.fromhex(re.sub(B, "", found[1]))
        if tail.strip(BLANKS):
            if not self.held(tail, octets):
                raise Refused(k, shown=True)
            return octets, True
        if not self.bare(columns, octets):
            raise Refused(k, shown=True)
        return octets, columns


def dump(lines, kind):
    """Octets of lines of which each names how many were before it; `*` repeats the line before it."""
    out, before, star, ended, columns = bytearray(), None, None, False, False
    for k, line in lines:
        if line.strip(BLANKS) == "*":
            if star or before is None or ended:
                raise Refused(k)
            star = k
            continue
        found = kind.offset.match(line)
        if not found or ended:
            raise Refused(k)
        place, rest = int(found[1], 16), line[found.end():]
        if rest.strip(BLANKS):
            row, columns = kind.row(k, rest, columns)
        elif not kind.ends:
            raise Refused(k, shown=True)
        gap = place - len(out)
        if place > LAST or gap < 0 or (gap == 0 or gap % len(before) if star else gap):
            raise Refused(k, shown=True)
        if star:
            out += before * (gap // len(before))
        star = None
        if len(out) > MOST:
            raise TooLong
        if not rest.strip(BLANKS):
            ended = True
            continue
        before = row
        out += row
        if len(out) > MOST:
            raise TooLong
    if star:
        raise Refused(star)
    return bytes(out)


def packet(text):
    """tcpdump's lines, after the packet's head, which may be anything: the dump begins with the first line that begins with 0x, digits and a colon."""
    lines = numbered(text)
    start = next(i for i, (_, line) in enumerate(lines) if re.match(f"{B}*0x{H}*:", line))
    if not re.match(f"{B}*0x0000:", lines[start][1]):
        raise Refused(lines[start][0])
    return dump(lines[start:], TCPDUMP)


# ---- all of them

PAIR, TWO = H + H, f"{H}{H}(?:{H}{H})?"
ONE_BLANK, MORE = f"{PAIR}(?:{B}{PAIR})*", f"{PAIR}(?:{B}+{PAIR})*"
GROUPS = f"{TWO}(?:{B}{TWO})*"


def cleared(columns, octets):
    """After the first text column, a line without one has only octets whose text is blank."""
    return not columns or not octets.strip(b" ")


WIRESHARK = Kind(f"({H}{{4}})", ONE_BLANK, column, cleared)
OD = Kind(f"({H}{{6}})", MORE, lambda tail, octets: between(tail, octets, ">", "<"), cleared, ends=True)
HEXDUMP = Kind(f"({H}{{8}})", MORE, lambda tail, octets: between(tail, octets, "|", "|"), lambda columns, octets: not octets.strip(b" "), ends=True)
XXD = Kind(f"({H}{{8}}):", GROUPS, column, cleared)
# A blank octet is a dot here.
TCPDUMP = Kind(f"0x({H}{{4}}):", GROUPS, lambda tail, octets: column(tail, octets, "."), lambda columns, octets: not columns)

ORDINARY = [
    plain,
    lambda text: separated(text, ":", H + "{1,2}"),
    lambda text: separated(text, ",", PAIR),
    lambda text: separated(text, "-", PAIR),
    prefixed,
    escaped,
    *(lambda text, kind=kind: dump(numbered(text), kind) for kind in (WIRESHARK, OD, HEXDUMP, XXD)),
]


def lists_by_mark(text):
    """Where the first line is one group, a mark further on decides: the first character that is neither a digit nor a blank."""
    alone = re.fullmatch(f"{H}+", numbered(text)[0][1].strip(BLANKS))
    mark = re.match(f"({H}|{B}|\n)*([:,-])", text)
    return [ORDINARY[":,-".index(mark[2]) + 1]] if alone and mark else []


def read_text(text):
    """The octets of a text in one of the forms."""
    if not text.strip(BLANKS + "\n"):
        return b""
    faults = []
    for form in lists_by_mark(text) or ORDINARY:
        try:
            return form(text)
        except Refused as refused:
            faults.append(refused)
    at = max(fault.line for fault in faults)
    if at == numbered(text)[0][0] and not any(fault.shown for fault in faults if fault.line == at):
        if re.search(f"(^|\n){B}*0x{H}*:", text):
            return packet(text)
        if re.match("([^{]*=)?[ \t\r\n]*{", text):
            return array(text)
    raise Refused(at)


def read_base64(text):
    """RFC 4648 §4, padded, blanks and line breaks anywhere."""
    alphabet = "ABCDEFGHIJKLMNOPQRSTUVWXYZabcdefghijklmnopqrstuvwxyz0123456789+/"
    line, bits, count, pads, ended_on = 1, 0, 0, 0, 1
    for c in text:
        line += c == "\n"
        if c in BLANKS + "\n":
            continue
        if c == "=":
            pads += 1
            if (count % 4, pads) not in ((2, 1), (2, 2), (3, 1)):
                raise Refused(line)
        elif c in alphabet and not pads:
            bits, count, ended_on = bits << 6 | alphabet.index(c), count + 1, line
        else:
            raise Refused(line)
    if (count + pads) % 4:
        raise Refused(last(text))
    if bits & (1 << 2 * pads) - 1:
        raise Refused(ended_on)
    return (bits >> 2 * pads).to_bytes(count * 6 // 8, "big")


def read(data, flag=None):
    """The octets that the command takes from this input with one of --hex, --raw, --base64 or none of them."""
    octets = octets_of(data, flag)
    if len(octets) > MOST:
        raise TooLong
    return octets


def octets_of(data, flag):
    controls = [k for k, c in enumerate(data) if c in CONTROLS]
    if flag == "--raw":
        return data
    if flag == "--base64":
        return read_base64(data.decode("latin-1"))
    if data[:2] in (b"\xff\xfe", b"\xfe\xff"):
        # UTF-16
        raise Refused(1)
    if controls and flag is None:
        return data
    return read_text(data.decode("latin-1"))
