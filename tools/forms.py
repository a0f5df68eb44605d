#!/usr/bin/env python3
"""Holds build/dnr, or the program that DNR names, against the input forms (docs/FORMS.md). Ends in 'N passed, M failed'.

forms.py                  each line of tests/forms/table.txt, by `dnr octets`; sheets by `dnr write` too, areas by `dnr read`;
                          the values of options, control octets, the most that is taken, the page's examples
forms.py --random N SEED  N random texts, one in two spoilt, against the reader of tools/forms_reference.py; the same for the same seed
forms.py --reference      the table against the reader alone: needs no dnr
"""
import os
import pathlib
import random
import re
import subprocess
import sys

import forms_reference as reference
import forms_random

ROOT = pathlib.Path(__file__).resolve().parents[1]
FORMS = ROOT / "tests" / "forms"
DNR = os.environ.get("DNR", str(ROOT / "build" / "dnr"))
CARRIERS = ("dhcp4", "dhcp6", "ra", "ike4", "ike6")
MOST = reference.MOST
counts = {True: 0, False: 0}


def check(held, *said):
    """Counts one check, and says what failed."""
    counts[bool(held)] += 1
    if not held:
        print("forms:", *said, "FAILED")


def dnr(*words, given=None):
    """Exit status, standard output and standard error of the command."""
    done = subprocess.run([DNR, *map(str, words)], input=given, stdin=subprocess.DEVNULL if given is None else None, capture_output=True, check=False)
    return done.returncode, done.stdout, done.stderr


def printed(octets):
    """What `dnr octets` prints of these octets."""
    return "".join(octets[k:k + 16].hex(" ") + "\n" for k in range(0, len(octets), 16)).encode()


def answered(answer, got, name):
    """Whether the command gave this answer: octets, the number of the line that it must name, or None for too many octets (refusal 2)."""
    status, out, err = got
    if answer is None:
        return status == 1 and not out and err.startswith(f"dnr: {name}: refused, 2: ".encode())
    if isinstance(answer, bytes):
        return status == 0 and out == printed(answer) and not err
    first = f"dnr: {name}: line {answer}: ".encode()
    return status == 2 and not out and err.startswith(first) and len(err) > len(first) + 1 and err.endswith(b"\n") and err.count(b"\n") == 1


def by_reference(data, flag):
    try:
        return reference.read(data, flag)
    except reference.Refused as refused:
        return refused.line
    except reference.TooLong:
        return None


def table():
    """File, flags and answer of each case."""
    for line in (FORMS / "table.txt").read_text().splitlines():
        words = line.split()
        if not words or words[0] == "#":
            continue
        name, flag, answer = words[0], None if words[1] == "-" else words[1], words[2:]
        yield name, flag, int(answer[1]) if answer[0] == "refused" else (FORMS / answer[0]).read_bytes()


def told(got):
    """A command's answer in a few words."""
    status, out, err = got
    return f"status {status}, {out[:60]!r} {err[:120]!r}"


def by_table():
    """Each case by `dnr octets`, and by the commands that take such octets."""
    sheet, written = ((FORMS / "octets" / name).read_bytes() for name in ("sheet.bin", "area-dhcp6.bin"))
    areas = {(FORMS / "octets" / f"area-{carrier}.bin").read_bytes(): carrier for carrier in ("dhcp4", "dhcp6", "ra")}
    for name, flag, answer in table():
        file, flags = FORMS / name, [flag] if flag else []
        got = dnr("octets", file, *flags)
        check(answered(answer, got, file), "octets", *flags, name, told(got))
        if isinstance(answer, int):
            got = dnr("read", "ra", *flags, file)
            check(answered(answer, got, file), "read ra", *flags, name, told(got))
        elif answer == sheet:
            check(dnr("write", file, *flags, "-o", "-") == (0, written, b""), "write", *flags, name)
        elif answer in areas:
            octets = FORMS / "octets" / f"area-{areas[answer]}.bin"
            for carrier in CARRIERS:
                wanted, got = dnr("read", carrier, "--raw", octets, "--json"), dnr("read", carrier, *flags, file, "--json")
                out = wanted[1].replace(str(octets).encode(), str(file).encode())  # messages name the file
                check((wanted[0], out) == got[:2], "read", carrier, *flags, name, told(got))


def table_by_reference():
    """The table and the reader agree, and every kept text stands in the table."""
    named = set()
    for name, flag, answer in table():
        named.add(name)
        got = by_reference((FORMS / name).read_bytes(), flag)
        check(got == answer, "reference", flag or "", name, got[:40].hex() if isinstance(got, bytes) else got)
    for file in sorted((FORMS / "text").iterdir()):
        check(f"text/{file.name}" in named, "table has no", file.name)


def by_values():
    """The value of an option, in each list form, reads as the area that is this option alone; two values as two of them."""
    forms = [lambda o: o.hex(), lambda o: o.hex(" "), lambda o: ":".join(f"{c:x}" for c in o), lambda o: o.hex(","), lambda o: o.hex("-").upper() + "-",
             lambda o: "0x" + o.hex(), lambda o: ", ".join(f"0x{c:02x}" for c in o), lambda o: "".join(f"\\x{c:02x}" for c in o)]
    for piece, header in (("k02-dhcp4", 2), ("k01-dhcp6", 4), ("k03-ra", 2), ("k05-ike6", 4)):
        carrier = piece[4:]
        area = bytes.fromhex((ROOT / "examples" / f"{piece}.hex").read_text())
        value = area[header:]
        for times in (1, 2):
            wanted = dnr("read", carrier, "--raw", "--json", given=area * times)
            for form in forms:
                text = "\n".join([form(value)] * times) + "\n"
                got = dnr("read", carrier, "--value", "--json", given=text.encode())
                check(got[:2] == wanted[:2], "read", carrier, "--value", repr(text), told(got))
        wanted = dnr("read", carrier, "--raw", "--json", given=area)
        got = dnr("read", carrier, "--value", given=f"{value.hex()}\n\n{value.hex()}0\n".encode())
        check(answered(3, got, "standard input"), "read", carrier, "--value, a fault in the third line", told(got))
        check(dnr("read", carrier, "--value", "--raw", "--json", given=value)[:2] == wanted[:2], "read", carrier, "--value --raw")
        for name in ("xxd", "hexdump-C", "od-Ax-tx1", "tshark-x", "tcpdump-xx"):
            got = dnr("read", carrier, "--value", FORMS / "text" / f"{name}.n17.txt")
            check(got[0] == 2 and not got[1], "read", carrier, "--value", name, told(got))


def by_limits():
    """The most that is taken: 40,960 octets in each form, and a `*` that stands for them."""
    octets = bytes((k * 97 + k // 256) % 256 for k in range(MOST + 1))
    for form in dict.fromkeys(forms_random.FORMS):
        flags = ["--base64"] if form is forms_random.based else []
        text = form(random.Random("most"), octets[:MOST]).encode()
        check(dnr("octets", *flags, given=text)[:2] == (0, printed(octets[:MOST])), "40,960 octets,", form.__name__, len(text), "characters")
        got = dnr("octets", *flags, given=form(random.Random("most"), octets).encode())
        check(answered(None, got, "standard input"), "40,961 octets,", form.__name__, told(got))
    line = "00000000  " + "00 " * 8 + " " + "00 " * 8 + " |" + "." * 16 + "|\n*\n"
    check(dnr("octets", given=(line + "0000a000\n").encode())[:2] == (0, printed(bytes(MOST))), "a * for 40,960 octets")
    for end, answer in (("0000a010", None), ("0000fff0", None), ("7ffffff0", 3), ("80000000", 3), ("fffffff0", 3)):
        got = dnr("octets", given=(line + end).encode())
        check(answered(answer, got, "standard input"), "a * up to", end, told(got))
    # xxd -c 1 has 16 characters an octet; no text of 40,960 octets has more.
    text = "".join(f"{k:08x}: {octet:02x}  {reference.shown(bytes([octet]))}\n" for k, octet in enumerate(octets[:MOST])).encode()
    check(len(text) == 655360 and dnr("octets", given=text)[:2] == (0, printed(octets[:MOST])), "655,360 characters")
    got = dnr("octets", given=text + b"\n")
    check(got[0] == 2 and not got[1] and got[2].startswith(b"dnr: standard input: "), "655,361 characters", told(got))


def by_controls():
    """A control octet makes the input octets as they are, and none of the forms; a colour or a page end stands in texts."""
    for octet in (*range(32), 127):
        text = b"00\n" + bytes([octet]) + b"\n"
        for flag in (None, "--hex"):
            answer = b"\0" if octet in b"\t\n\r" else 2 if flag or octet in b"\f\x1b" else text
            got = dnr("octets", *([flag] if flag else []), given=text)
            check(answered(answer, got, "standard input"), "control octet", octet, flag or "", told(got))


def by_page():
    """The examples of docs/FORMS.md: its lists and its array show four octets, its dumps those of an area."""
    page = (ROOT / "docs" / "FORMS.md").read_text()
    _, lists, dumps, *_ = page.split("\n## ")
    digits, dumped = bytes.fromhex("a2170015"), bytes.fromhex((ROOT / "examples" / "k02-dhcp4.hex").read_text())
    examples = [(text, digits) for text in re.findall(r"^\|[^|]*\| `([^|]*)` \|", lists, re.M)]
    for section, octets in ((lists, digits), (dumps, dumped)):
        examples += [(block, octets) for block in re.findall("(?:^    .*\n)+", section, re.M)]
    check(len(examples) == 14, "the page has", len(examples), "examples")
    for text, octets in examples:
        got = dnr("octets", given=text.encode())
        check(answered(octets, got, "standard input"), "example", repr(text), told(got))


def by_random(count, seed):
    """Random texts from standard input."""
    for k in range(count):
        form, text, flag = forms_random.case(f"{seed}/{k}")
        answer = by_reference(text, flag)
        got = dnr("octets", *([flag] if flag else []), given=text)
        wanted = answer[:40].hex() if isinstance(answer, bytes) else answer
        check(answered(answer, got, "standard input"), f"random {seed}/{k}", form, flag or "", f"\n  text {text!r}\n  wanted {wanted}\n  got {told(got)}\n ")


def main(words):
    if words == ["--reference"]:
        table_by_reference()
    elif len(words) == 3 and words[0] == "--random":
        by_random(int(words[1]), words[2])
    elif not words:
        table_by_reference()
        by_table()
        by_values()
        by_controls()
        by_limits()
        by_page()
    else:
        sys.exit(__doc__)
    print(f"{counts[True]} passed, {counts[False]} failed")
    sys.exit(counts[False] != 0)


if __name__ == "__main__":
    main(sys.argv[1:])
