#!/usr/bin/env python3
"""Runs the program that is named on inputs of its own making: values of options, areas in which nothing is found, texts that are no octets, and the
most that is taken. Ends in 'N passed, M failed'.

What must be printed are the texts of tests/command for the areas of examples, and the words of docs/COMMAND.md. Options are taken apart here by
RULES W1 to W7, not by the program.
"""
import base64
import pathlib
import subprocess
import sys

ROOT = pathlib.Path(__file__).resolve().parents[2]
sys.path.insert(0, str(ROOT / "tools"))
sys.dont_write_bytecode = True
import show
CARRIERS = {1: "dhcp4", 2: "dhcp6", 3: "ra", 4: "ike4", 5: "ike6"}
NAMES = {1: "DHCPv4", 2: "DHCPv6", 3: "router advertisement", 4: "IKEv2 ENCDNS_IP4", 5: "IKEv2 ENCDNS_IP6"}
CODES = {1: 162, 2: 144, 3: 144, 4: 27, 5: 28}
FORM = "not octets in a form I know; --raw takes the input as it is"
LARGE = "no option of this carrier holds a value so long"
LONG = "refused, 2: input longer than 40,960 octets"
counts = {True: 0, False: 0}


def held(what, given, words, status, out="", err=""):
    """One check: the command with this input ends so, prints `out`, and says each line of `err` of its input."""
    done = subprocess.run([sys.argv[1], *words.split()], input=given if isinstance(given, bytes) else given.encode(), capture_output=True, check=False)
    said = "".join(f"dnr: standard input: {line}\n" for line in err.splitlines())
    right = (done.returncode, done.stdout, done.stderr) == (status, out.encode(), said.encode())
    counts[right] += 1
    if not right:
        print(f"inputs: {what}: dnr {words}: FAILED: {done.returncode} {done.stdout[-200:]} {done.stderr[:300]}, not {status} {out[-200:]!r} {said!r}")


# ---- the examples


def example(piece):
    return bytes.fromhex((ROOT / "examples" / f"{piece}.hex").read_text())


def shown(piece):
    return (ROOT / "tests" / "command" / f"{piece}.txt").read_text()


def discarded(octet, fault):
    """What is said where the one block is discarded, with the words of tests/command/words.txt."""
    table = dict(line.split(" ", 1) for line in (ROOT / "tests" / "command" / "words.txt").read_text().splitlines())
    return f"1 of 1 blocks discarded\nblock 1, octet {octet}: discarded, {fault}: {table[str(fault)]}"


def nothing(carrier):
    """What is printed of a reading without records in which nothing was found."""
    return f"{NAMES[carrier]} (carrier {carrier}), 0 records\nfound 0, discarded 0\n"


def missing(carrier, n, hint=None):
    """What is said of n octets in which nothing was found."""
    kind = "attribute" if carrier > 3 else "option"
    return f"no {kind} {CODES[carrier]} in {n} octets" + (f"; read as {hint} a resolver is found" if hint else "")


def options(carrier, area):
    """Code and value of each option (RULES W1 to W7)."""
    width = 1 if carrier in (1, 3) else 2
    while area:
        if carrier == 1 and area[0] in (0, 255):
            area = area[1:] if area[0] == 0 else b""
            continue
        code, n = int.from_bytes(area[:width], "big"), int.from_bytes(area[width:2 * width], "big")
        end = 8 * n if carrier == 3 else 2 * width + n
        yield code % 32768, area[2 * width:end]
        area = area[end:]


def values(carrier, area):
    """The values of the carrier's own options that have octets; in carrier 1 they are one (RULES W4)."""
    found = [value for code, value in options(carrier, area) if code == CODES[carrier] and value]
    return [b"".join(found)] if carrier == 1 and found else found


# ---- values


def by_examples():
    """The values of each example, one a line, give its sheet."""
    for file in sorted((ROOT / "examples").glob("*-*.hex")):
        piece, carrier = file.stem, {name: number for number, name in CARRIERS.items()}[file.stem.split("-")[1]]
        if piece.startswith("cut") or piece == "k06-dhcp6":
            continue
        # the octets are those of the one option that the values make
        faults = {"k07": discarded(4, 21), "k10": discarded(28, 25), "k11": discarded(31, 29)}
        faults["sev"] = "block 1, octet 21: address 127.0.0.1 dropped: multicast or loopback"
        said = faults.get(piece[:3], "")
        # the attribute of this example that has no octets is no value
        wanted = shown(piece).replace("found 2, discarded 1, fault 20", "found 1, discarded 0")
        found = values(carrier, example(piece))
        for words in (f"read {carrier} --value", f"read --value {CARRIERS[carrier]} --hex"):
            held(f"values of {piece}", "".join(value.hex() + "\n" for value in found), words, 0, wanted, said)
        if len(found) == 1:
            held(f"the value of {piece}", found[0], f"read {carrier} --value --raw", 0, wanted, said)
            held(f"the value of {piece}", base64.encodebytes(found[0]), f"read {carrier} --value --base64", 0, wanted, said)


def by_lines():
    """Forms of a line, and what stands between lines."""
    one, = values(1, example("k02-dhcp4"))
    three = [value.hex() for value in values(2, example("k12-dhcp6"))]
    for name, text in (
        ("dhclient's colons", ":".join(f"{c:x}" for c in one)), ("colons", one.hex(":").upper()), ("blanks", one.hex(" ")), ("commas", one.hex(",")),
        ("dashes", one.hex("-")), ("0x", "0x" + one.hex()), ("0x before each", ", ".join(f"0x{c:02x}" for c in one)),
        ("\\x", '"' + "".join(f"\\x{c:02x}" for c in one) + '"'), ("no line break", one.hex()), ("octets", one),
        # joined, the values of carrier 1 are one (RULES W4)
        ("two halves", one[:9].hex() + "\n" + one[9:].hex() + "\n"),
    ):
        held(name, text, "read 1 --value", 0, shown("k02-dhcp4"))
    for name, text in (
        ("empty lines", "\n" + "\n\n".join(three) + "\n\n"), ("blank lines", " \n" + "\n \t\n".join(three)),
        ("carriage returns", "\r\n".join(three) + "\r\n"), ("blanks around", "".join(f"\t{line} \n" for line in three)),
        ("a form for each", three[0] + "\n0x" + three[1] + "\n" + bytes.fromhex(three[2]).hex(":")),
    ):
        held(name, text, "read 2 --value", 0, shown("k12-dhcp6"))
    for text in ("", "\n", " \r\n\t\n"):
        for carrier in CARRIERS:
            held("no value", text, f"read {carrier} --value", 0, nothing(carrier), missing(carrier, 0))
    held("no octets", "", "read 2 --value --raw", 0, nothing(2), missing(2, 0))
    held("no octets", "", "read 2 --value --base64", 0, nothing(2), missing(2, 0))


def by_padding():
    """Values of carrier 3 get the zeros that bring the option to a multiple of 8 (RULES E3); 8 of their own are too many (RULES R29)."""
    value, = values(3, example("k03-ra"))
    for n in range(5):
        held(f"{n} zeros", value[:len(value) - n].hex(), "read 3 --value", 0, shown("k03-ra"))
    held("12 zeros", value.hex() + 16 * "0", "read 3 --value", 0, shown("k11-ra"), discarded(39, 29))


def by_spoilt_lines():
    """The line of a value that is no octets is named, and nothing is printed."""
    one = values(2, example("k01-dhcp6"))[0].hex()
    for name, text, line in (
        ("an odd digit", one + "0\n", 1), ("a word", one + "\n\nnone\n" + one, 3), ("a sign", one + "\n" + one[:8] + "/" + one[8:], 2),
        ("two signs", one + "\n" + "00::01\n", 2), ("a blank before it", one + "\n \n  zz\n", 3), ("an xxd dump", one + "\n00000000: 0001 0012\n", 2),
        ("a dump after a blank", "0102\n 0000  01 02 03\n", 2), ("a C array after blanks", "0102\n\n \t{ 0x00 }\n", 3),
        ("a hexdump", "00000000  00 01                                             |..|\n", 1), ("a C array", "{ 0x00, 0x01 }\n", 1),
    ):
        for carrier in CARRIERS:
            held(name, text, f"read {carrier} --value", 2, "", f"line {line}: {FORM}")
    held("words", one + "\n0001 0012\n", "read 2 --value", 2, "", f"line 2: {GROUPS}")
    held("base64 for a value", one + "\n" + "zzz=\n", "read 2 --value --base64", 2, "", "line 2: not base64")
    held("a control character", one + "\n" + "00\0\n", "read 2 --value --hex", 2, "", f"line 2: {FORM}")


def by_sizes():
    """The longest value: what 255 units of eight hold beside the header in carrier 3 (RULES L6), else what is taken as an area (RULES L1)."""
    hosts, name, field = 63 * [bytes([32]) * 16], show.wire_of("doh1.example.com"), show.parameter(65280, bytes(996))
    value = bytes.fromhex("000100000e10") + b"".join(len(part).to_bytes(2, "big") + part for part in (name, b"".join(hosts), field))
    assert len(value) == 2038
    wanted = show.text(show.sheet_of(3, [show.record(1, 3600, "doh1.example.com", (hosts, field))])) + "found 1, discarded 0\n"
    held("2,038 octets", value.hex(), "read 3 --value", 0, wanted)
    held("2,038 octets", value, "read 3 --value --raw", 0, wanted)
    for words, given in (("read 3 --value", "\n" + 2039 * "00"), ("read ra --value --hex", " \n" + 40960 * "00"), ("read 3 --value", "00\n \t" + 2039 * "00")):
        held("above 2,038 octets", given, words, 2, "", f"line 2: {LARGE}")
    held("above 2,038 octets", bytes(2039), "read 3 --value --raw", 2, "", f"line 1: {LARGE}")
    held("above 2,038 octets", base64.encodebytes(bytes(2039)), "read 3 --value --base64", 2, "", f"line 1: {LARGE}")
    # beside a header of 4 octets; beside 160 headers of 2, 159 of them before 255 octets (RULES E2)
    for carrier, n in ((2, 40956), (4, 40956), (5, 40956), (1, 40640)):
        fault = 20 if carrier == 1 else 21
        wanted = nothing(carrier).replace("found 0, discarded 0", f"found 1, discarded 1, fault {fault}")
        held(f"{n} octets", n * "00", f"read {carrier} --value", 0, wanted, discarded(4, fault))
        for more in (n + 1, 40961):
            held(f"{more} octets", more * "00", f"read {carrier} --value", 1, "", LONG)
            held(f"{more} octets", bytes(more), f"read {carrier} --value", 1, "", LONG)
    half = values(2, example("k01-dhcp6"))[0].hex() + "\n"
    held("values of more than 40,960 octets", 788 * half, "read 2 --value", 1, "", LONG)
    held("seventeen values", 17 * half, "read 2 --value", 1, "", "refused, 4: more than 16 records")


# ---- nothing found


def by_nothing():
    """Areas of one carrier read as another's; the hint is the first carrier that has records in them."""
    k1, k2, k3, k5, escaped = (example(piece) for piece in ("k01-dhcp6", "k02-dhcp4", "k03-ra", "k05-ike6", "escaped-ike4"))
    for carrier, area, hint in (
        # an option of DHCPv6 is none of IKEv2, and the other way round; option 162 and its length are one code of two octets there
        (4, k1, "dhcp6"), (5, k1, "dhcp6"), (2, k5, "ike6"), (4, k5, "ike6"), (2, k2, "dhcp4"), (4, k2, "dhcp4"), (5, k2, "dhcp4"), (2, escaped, "ike4"),
        # a link-layer address whose octets are a length of DHCPv6; the code 255 that ends an area of DHCPv4; a code that is a length of 8 units
        (2, bytes.fromhex("0101002402000001") + k3, "ra"), (5, bytes.fromhex("0101002402000001") + k3, "ra"),
        (1, bytes.fromhex("ff000000") + k1, "dhcp6"), (3, bytes.fromhex("000800080000000000000000") + k1, "dhcp6"),
        # nothing in any carrier
        (1, bytes.fromhex("0604c0000235ff"), None), (2, bytes.fromhex("00080000"), None), (3, bytes(1) + b"\1" + bytes(6), None),
        (4, bytes.fromhex("00010004c0000264"), None), (5, bytes.fromhex("00010004c0000264"), None),
        # one that is discarded is no record
        (4, bytes.fromhex("001c0000"), None),
    ):
        said = missing(carrier, len(area), hint)
        held("nothing found", area, f"read {carrier} --raw", 0, nothing(carrier), said)
        held("nothing found", area.hex(), f"read {CARRIERS[carrier]} --strict", 3, nothing(carrier), said)
        sheet = f'"carrier":{carrier},"carrierName":"{NAMES[carrier]}","records":[]'
        told = f'{{"found":0,"discarded":0,"fault":0,"place":0,"sheet":{{{sheet}}}}}\n{{"message":"standard input: {said}"}}\n'
        held("nothing found", area.hex(), f"read {carrier} --json", 0, told, said)
    held("one octet", "00", "read 1", 0, nothing(1), missing(1, 1))


# ---- texts that are no octets

GROUPS = "groups of more than two digits side by side may be words or offsets; write octets apart, or one group a line"
OFFSET = "the offset is not the number of octets before it"
COLUMN = "the text beside the octets is not theirs"
COUNT = "the length is not the number of octets"


def by_reasons():
    """Each reason, with the line at fault; no command prints anything then."""
    for line, words, text in (
        (1, FORM, "hello"), (1, FORM, "0"), (1, FORM, "12 3"), (1, FORM, "1g"), (1, FORM, "a2::16"), (2, FORM, "00 01\n02 x3\n"), (3, FORM, "00\n\nx\n"),
        (1, FORM, b"\xff\xfe0\0001\0"), (1, FORM, b"\xef\xbb\xbf00 01"), (1, FORM, "{\"a\": 1}"), (1, FORM, "0000000 9000 3000 0100"),
        (2, FORM, "a[] = {\n162, 22\n};\n"), (1, GROUPS, "0001 0012"), (2, GROUPS, "00010012\n0001 0012\n"), (1, GROUPS, "0x0015 0x0001"),
        (2, OFFSET, "00000000: 0090 0030\n00000005: 0001\n"), (1, OFFSET, "0010  00 90 00 30\n"), (2, OFFSET, "000000 00 90\n000003\n"),
        (1, COLUMN, "00000000: 0090 6162  ..ac\n"), (2, COLUMN, "0000  61  a\n0001  62  c\n"), (1, COLUMN, "00000000  61 62  |ac|\n"),
        (4, COUNT, "unsigned char a[] = {\n  0x00, 0x90\n};\nunsigned int a_len = 3;\n"),
    ):
        for command in ("octets", "read 2", "write --hex", "show"):
            held(f"{text!r}", text, command, 2, "", f"line {line}: {words}")
    for line, text in ((1, "QQ="), (1, "Q=Q="), (2, "QUJD\nQ!==\n"), (1, "QR=="), (2, "QUJD\nQUI\n")):
        held(f"{text!r}", text, "octets --base64", 2, "", f"line {line}: not base64")
    held("a control character", "00 90\n00\0\n", "octets --hex", 2, "", f"line 2: {FORM}")


# ---- the most that is taken


def by_most():
    """40,960 octets, in text of at most 655,360 characters."""
    for name, given, n in (
        ("40,960 octets", bytes(40960), 40960), ("40,960 octets, digits", 40960 * "00 ", 40960), ("163,841 characters", 40960 * "00: " + "\n", 40960),
        ("180,000 characters", 30000 * "0x00, ", 30000), ("655,360 characters", 40960 * f"{'0x00,':16}", 40960),
        ("blanks alone", 655360 * " ", 0),
    ):
        held(name, given, "read 1", 0, nothing(1), missing(1, n))
    for name, given in (
        ("40,961 octets", bytes(40961)), ("40,961 octets, digits", 40961 * "00 "), ("655,360 octets", bytes(655360)), ("327,680 octets, digits", 327680 * "00"),
    ):
        for words in ("read 1", "write", "octets"):
            held(name, given, words, 1, "", LONG)
    held("40,961 octets, base64", base64.encodebytes(bytes(40961)), "octets --base64", 1, "", LONG)
    for name, given in (("655,361 characters", 40960 * f"{'0x00,':16}" + "\n"), ("655,361 octets", bytes(655361)), ("blanks alone", 655361 * " ")):
        for words in ("read 1", "write --raw", "show --hex", "octets --base64", "read 3 --value"):
            held(name, given, words, 2, "", "longer than 655,360 octets")


def main():
    for part in (by_examples, by_lines, by_padding, by_spoilt_lines, by_sizes, by_nothing, by_reasons, by_most):
        part()
    print(f"{counts[True]} passed, {counts[False]} failed")
    return counts[False] != 0


if __name__ == "__main__":
    sys.exit(main())
