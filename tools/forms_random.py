"""Random texts in the input forms of the command: case(seed) gives the form's name, a text and the flag to read it with; the same for the same seed."""
import base64
import random
import re

PRINTED = b"ab cd ef 01 | . > < {}:;*0x09"


def octets(rng):
    """Some octets: of all values, of the dumps' own characters, or with long runs of one."""
    count = rng.choice((0, 1, 2, 3, 7, 8, 9, 15, 16, 17, 31, 32, 33, rng.randrange(100)))
    kind = rng.randrange(4)
    if kind == 0:
        return bytes(rng.randrange(256) for _ in range(count))
    if kind == 1:
        return bytes(rng.choice(PRINTED) for _ in range(count))
    if kind == 2:
        return bytes(rng.randrange(32, 127) for _ in range(count))
    return bytes(rng.randrange(256) for _ in range(count % 20)) + bytes([rng.choice((0, 32, 255))]) * rng.choice((16, 48, 100)) + b"end"


def cased(rng, text):
    return text.upper() if rng.random() < 0.3 else text


def cut(data, width):
    return [data[k:k + width] for k in range(0, len(data), width)]


def blank(rng):
    """One or more blanks within a line."""
    return rng.choice((" ", " ", " ", "  ", "\t", " \t "))


# ---- lists


def plain(rng, data):
    """Groups of two digits, or one group a line."""
    if rng.random() < 0.5:
        out, at = [], 0
        while at < len(data):
            count = rng.choice((1, 2, 8, 30))
            out.append(rng.choice(("", " ", "\t")) + data[at:at + count].hex())
            at += count
        return cased(rng, "\n".join(out))
    return cased(rng, "\n".join(blank(rng).join(group.hex() for group in cut(line, 1)) for line in cut(data, rng.randrange(1, 20))))


def separated(rng, data, mark, short=False):
    """Groups with a mark between two, some lines ending in one."""
    def group(octet):
        return f"{octet:x}" if short else f"{octet:02x}"
    around = rng.choice(("", "", " "))
    lines = [(around + mark + around).join(map(group, line)) for line in cut(data, rng.randrange(1, 24))]
    end = rng.choice(("", mark))
    # Where no line has two groups, a mark at the end shows the form.
    last = end if any(mark in line for line in lines) else mark
    return cased(rng, "".join(line + end + "\n" for line in lines[:-1]) + lines[-1] + last if lines else "")


def colons(rng, data):
    return separated(rng, data, ":", rng.random() < 0.5)


def commas(rng, data):
    return separated(rng, data, ",")


def dashes(rng, data):
    return separated(rng, data, "-")


def prefixed(rng, data):
    if rng.random() < 0.2:
        return rng.choice(("0x", "0X")) + data.hex() if data else ""
    mark = rng.choice((" ", ",", ", ", " , "))
    digits = rng.choice(("x", "02x", "X", "02X"))
    return "\n".join(mark.join(f"0x{octet:{digits}}" for octet in line) + rng.choice(("", ",")) for line in cut(data, rng.randrange(1, 20)))


def escaped(rng, data):
    quote = rng.choice(("", '"'))
    return "\n".join(quote + rng.choice(("", " ")).join(f"\\x{octet:02x}" for octet in line) + quote for line in cut(data, rng.randrange(1, 20)))


def array(rng, data):
    end = rng.choice(("}", "};", "} ;\n", f"}};\nunsigned int area_len = {len(data)};", f"}}\n;\nint a[1]\t=\n{len(data)}\n;"))
    lines = [", ".join(f"0x{octet:02x}" for octet in line) for line in cut(data, 12)]
    return "unsigned char area[] = {" + rng.choice((" ", "\n")) + ",\n  ".join(lines) + "\n" + end


# ---- dumps


def shown(data, space=" "):
    return "".join(chr(c) if 32 < c < 127 else space if c == 32 else "." for c in data)


def rows(rng, data, width, line, star="*", ended=None):
    """The lines of a dump, repeated ones as the tools write them."""
    out, before, starred = [], None, False
    for k, part in enumerate(cut(data, width)):
        if star and part == before and len(part) == width and (k + 1) * width < len(data):
            if not starred:
                out.append(star)
            starred = True
            continue
        before, starred = part, False
        out.append(line(k * width, part))
    if ended and data:
        out.append(ended.format(len(data)))
    if rng.random() < 0.1 and out:
        out.insert(rng.randrange(len(out) + 1), rng.choice(("", "  ")))
    return "\n".join(out)


def wireshark(rng, data):
    gap, column = rng.choice(("  ", "   ")), rng.random() < 0.7
    return rows(rng, data, 16, lambda k, part: f"{k:04x}{gap}{part.hex(' '):<47}" + ("   " + shown(part) if column else ""), None)


def od(rng, data):
    column, width = rng.randrange(2), rng.choice((16, 16, 8, 4))

    def line(k, part):
        return f"{k:06x} " + (f"{part.hex(' '):<{width * 3 - 1}}  >{shown(part)}<" if column else part.hex(" "))
    return rows(rng, data, width, line, rng.choice(("*", None)), rng.choice(("{:06x}", None)))


def hexdump(rng, data):
    def line(k, part):
        halves = part[:8].hex(" ") + ("  " + part[8:].hex(" ") if part[8:] else "")
        return f"{k:08x}  {halves:<48}  |{shown(part)}|"
    return rows(rng, data, 16, line, rng.choice(("*", None)), rng.choice(("{:08x}", None)))


def grouped(part, size):
    return " ".join(group.hex() for group in cut(part, size))


def xxd(rng, data):
    size, width, column = rng.choice((1, 2)), rng.choice((16, 16, 8, 6)), rng.random() < 0.8
    full = width * 2 + (width + size - 1) // size - 1
    upper = rng.random() < 0.3

    def line(k, part):
        groups = grouped(part, size)
        return f"{k:08x}: {groups.upper() if upper else groups:<{full}}" + ("  " + shown(part) if column else "")
    return rows(rng, data, width, line, rng.choice(("*", None, None)))


def tcpdump(rng, data):
    column = rng.random() < 0.6
    head = rng.choice(("", "22:13:20.000000 IP 192.0.2.1.67 > 192.0.2.2.68: BOOTP/DHCP, Reply, length 300\n", "a\n  head {mtu 1500}\n\n"))
    lines = rows(rng, data, 16, lambda k, part: f"\t0x{k:04x}:  {grouped(part, 2):<39}" + ("  " + shown(part, ".") if column else ""), None)
    return head + lines if data else ""


def based(rng, data):
    text = base64.b64encode(data).decode()
    return "\n".join(cut(text, rng.choice((64, 76, 10000, 5))))


FORMS = [plain, plain, colons, commas, dashes, prefixed, escaped, array, wireshark, od, hexdump, xxd, xxd, tcpdump, based]


# ---- spoiling


def spoilt(rng, text):
    """The text with one character, one line or one text column otherwise, or cut, or with more after it."""
    if not text:
        return rng.choice((":", "*", "0", "{", "x", "\\"))
    at, how = rng.randrange(len(text)), rng.randrange(11)
    other = rng.choice("0123456789abcdefABCDEF" + "  \t\n::,-|*{}x0\\;=<>.gZ\u00e9" + "\x1b\x0c\x07")
    lines = text.split("\n")
    k = rng.randrange(len(lines))
    if how < 2:
        return text[:at] + other + text[at + 1:]
    if how == 2:
        return text[:at] + text[at + 1:]
    if how == 3:
        return text[:at] + other + text[at:]
    if how == 4:
        return text[:at]
    if how == 5:
        return "\n".join(lines[:k] + lines[k + 1:])
    if how == 6:
        # groups of several octets
        return "\n".join(lines[:k] + [re.sub("([0-9a-f]{2}) (?=[0-9a-f]{2})", r"\1", lines[k], count=rng.randrange(8))] + lines[k + 1:])
    if how == 7:
        # a line without what follows two blanks, as a window cuts it
        return "\n".join(lines[:k] + [re.sub("(?<=[0-9a-f])  .*", "", lines[k])] + lines[k + 1:])
    if how == 8:
        # cut after an offset, with its colon or not, or the blank after it
        front = re.match("[ \t]*(0x)?[0-9a-f]*:? ?", lines[k])[0]
        return "\n".join(lines[:k] + [front[:len(front) - rng.randrange(3)]])
    if how == 9:
        # more after the end, as it may stand after a C array
        pieces = (" ", "\n", ";", "}", "0x01", ", 0x01 };", "/* end */", "int n", "=", "1", "{ 0x01 }")
        return text + "".join(rng.choices(pieces, k=rng.randrange(1, 6)))
    return "\n".join(lines[:k] + [lines[k]] + lines[k:])


def case(seed):
    """A form's name, a text and a flag."""
    rng = random.Random(seed)
    form = rng.choice(FORMS)
    text = form(rng, octets(rng))
    if rng.random() < 0.5:
        text = spoilt(rng, text)
    if rng.random() < 0.3:
        text = "\n".join(line.rstrip(" ") for line in text.split("\n"))
    if rng.random() < 0.2:
        text = text.replace("\n", "\r\n")
    if rng.random() < 0.7:
        text += "\n"
    flag = "--base64" if form is based else rng.choice((None, None, "--hex"))
    return form.__name__, text.encode("latin-1"), flag
