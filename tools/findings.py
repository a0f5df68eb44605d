#!/usr/bin/env python3
"""Holds what build/dnr, or the program that DNR names, says of areas against a second reader (docs/COMMAND.md, "Less than all" and "JSON").

findings.py [N [SEED]]   the fixed list of tools/findings_cases.py, then N random areas (none if not given); ends in 'N passed, M failed'
findings.py --reference  the second reader alone, against what the fixed list and the examples say: needs no dnr

Each area is read twice, as text and with --json, once of them with --strict, from a file or from standard input. Standard error is held octet by
octet, standard output too: the text, and each object as text and parsed. A fault, a reason or a parameter of the tables that no area had is a
failure.
"""
import collections
import concurrent.futures
import json
import os
import pathlib
import re
import subprocess
import sys
import tempfile

sys.dont_write_bytecode = True
import findings_cases as cases
import findings_random
import findings_reference as reference
import show

ROOT = pathlib.Path(__file__).resolve().parents[1]
DNR = os.environ.get("DNR", str(ROOT / "build" / "dnr"))
counts = {True: 0, False: 0}


def check(held, *said):
    """Counts one check, and says what failed."""
    counts[bool(held)] += 1
    if not held:
        print("findings:", *said, "FAILED")


# ---- what must be said


def quoted(octets):
    """A message as a JSON string: one character an octet."""
    return "".join("\\" + chr(c) if chr(c) in '\\"' else chr(c) if 32 <= c <= 126 else f"\\u00{c:02x}" for c in octets)


def told(name, message, members):
    """A message as a JSON object, its members in the order of docs/COMMAND.md."""
    given = "".join(f',"{key}":{members[key]}' for key in ("status", "number", "errno", "block", "octet") if members.get(key))
    return '{"message":"' + quoted(f"{name}: {message}".encode()) + f'"{given}}}\n'


class Wanted:
    """All that dnr must print of an area from an input of this name."""

    def __init__(self, carrier, area, name):
        try:
            self.reading = reference.read(carrier, area)
        except reference.Refused as refused:
            self.reading, self.refusal = None, refused.number
            said = [reference.refused(carrier, area, refused.number)]
            self.text = self.json = ""
        else:
            said = list(reference.messages(carrier, area, self.reading))
            sheet = reference.sheet(carrier, self.reading)
            self.text = show.text(sheet) + reference.numbers(self.reading) + "\n"
            numbers = {key: getattr(self.reading, key) for key in ("found", "discarded", "fault", "place")}
            self.json = show.line_of_json({**numbers, "sheet": show.tree(sheet)})
        self.error = "".join(f"dnr: {name}: {message}\n" for message, _ in said)
        self.json += "".join(told(name, message, members) for message, members in said)

    def status(self, strict):
        if self.reading is None:
            return 1
        return 3 if strict and (self.reading.found == 0 or self.reading.discarded) else 0


# ---- the program


def run(words, given):
    """Exit status, standard output and standard error of the command."""
    done = subprocess.run([DNR, *words], input=given, stdin=subprocess.DEVNULL if given is None else None, capture_output=True, check=False)
    return done.returncode, done.stdout.decode("latin-1"), done.stderr.decode("latin-1")


def differs(what, wanted, got):
    """The first line in which two texts differ."""
    pairs = zip(wanted.splitlines() + ["(end)"], got.splitlines() + ["(end)"])
    return f"{what}:" + next((f"\n  wanted {a[:400]}\n  got    {b[:400]}" for a, b in pairs if a != b), " the line ends")


def failures(words, given, wanted, strict, as_json):
    """What is wrong with one run."""
    status, out, error = run([*words, *(["--strict"] if strict else []), *(["--json"] if as_json else [])], given)
    if status != wanted.status(strict):
        yield f"exit status {status} instead of {wanted.status(strict)}"
    if error != wanted.error:
        yield differs("standard error", wanted.error, error)
    if out != (wanted.json if as_json else wanted.text):
        yield differs("standard output", wanted.json if as_json else wanted.text, out)
    if as_json:
        try:
            parsed = [json.loads(line) for line in out.splitlines()]
        except json.JSONDecodeError as no:
            parsed = no
        if parsed != [json.loads(line) for line in wanted.json.splitlines()]:
            yield f"objects {parsed}"


def by_program(folder, k, case):
    """The failures of both runs of a case; the octets come from a file at every second one."""
    _, carrier, area, _ = case
    name = "standard input" if k % 2 else os.path.join(folder, f"area{k}")
    given = area if k % 2 else None
    if given is None:
        pathlib.Path(name).write_bytes(area)
    words = ["read", str(carrier) if k % 3 else reference.CARRIERS[carrier], "--raw", *([] if k % 2 else [name])]
    wanted = Wanted(carrier, area, name)
    found = [list(failures(words, given, wanted, strict=(k // 2 + half) % 2 == 1, as_json=half == 1)) for half in (0, 1)]
    if given is None:
        os.unlink(name)
    return found


def by_values():
    """The value of an option, without its header: octets are counted in the options that are made of it (RULES E2, E3)."""
    for carrier in reference.CARRIERS:
        width = reference.WIDTHS[carrier]
        shut = cases.SHUT[width][0]
        bodies = [cases.body(carrier, padding=b"", **fields)[0] for fields in (
            {"hosts": shut + cases.HOSTS[width] + shut}, {"priority": 0}, {"parameters": show.parameter(9, bytes(300)) + show.parameter(9, b"")})]
        if carrier == 1:
            bodies = [b"".join(cases.two(len(body)) + body for body in some) for some in (bodies[:1], bodies[1:], bodies[2:])]
        for value in bodies:
            area = b"".join(cases.option(1, value[k:k + 255]) for k in range(0, len(value), 255)) if carrier == 1 else cases.option(carrier, value)
            wanted = Wanted(carrier, area, "standard input")
            for as_json in (False, True):
                wrong = list(failures(["read", str(carrier), "--value", "--raw"], value, wanted, as_json, as_json))
                check(not wrong, "value", reference.CARRIERS[carrier], value.hex()[:400], *wrong)


# ---- the reader held against the cases, and what they reach


def plain(found):
    """A finding as the cases have it."""
    if isinstance(found, reference.Discarded):
        return found.octet, found.fault, found.tail
    return found[1], None, show.address(found[0])


def by_case(words, carrier, area, wanted):
    """A case says itself what must be found."""
    if wanted is None:
        return
    try:
        reading = reference.read(carrier, area)
        got = [(block, *plain(found)) for block, found in reading.findings]
    except reference.Refused as refused:
        got = f"refused, {refused.number}"
    check(got == wanted, "reader:", words, reference.CARRIERS[carrier], area.hex()[:200], "wanted", wanted, "got", got)


def by_examples():
    """Found, discarded and first fault of examples/*.out."""
    for file in sorted((ROOT / "examples").glob("*-*.hex")):
        carrier = {name: number for number, name in reference.CARRIERS.items()}[file.stem.split("-")[-1]]
        said = file.with_suffix(".out").read_text().splitlines()[0]
        try:
            reading = reference.read(carrier, bytes.fromhex(file.read_text()))
            fault = f", first fault {reading.fault}" if reading.discarded else ""
            got = f"{reading.found} found, {reading.discarded} discarded{fault}"
        except reference.Refused as refused:
            got = f"refusal {refused.number}"
        check(got in said, "reader:", file.name, "wanted", said, "got", got)


def reached(case, seen):
    """Notes what the messages of a case are about."""
    _, carrier, area, _ = case
    wanted = Wanted(carrier, area, "x")
    hinted = bool(re.search("; read as .* found$", wanted.error, re.M))
    seen[f"refusal {wanted.refusal} of carrier {carrier}" if wanted.reading is None else f"carrier {carrier}"] += 1
    if hinted:
        kind = "refused" if wanted.reading is None else "all discarded" if wanted.reading.found else "nothing found"
        seen[f"hint, {kind}, carrier {carrier}"] += 1
    for _, found in wanted.reading.findings if wanted.reading else []:
        if isinstance(found, reference.Discarded):
            seen[f"fault {found.fault} of carrier {carrier}"] += 1
            if found.fault == 22:
                seen[f"reason in {cases.form(carrier)}{found.tail}"] += 1
            elif found.fault > 25 and found.fault != 29:
                seen[f"fault {found.fault}{found.tail}"] += 1
        else:
            seen[f"dropped of carrier {carrier}"] += 1


def demanded():
    """What must have been reached: each fault, reason, kind of parameter, hint and dropped address."""
    for carrier in reference.CARRIERS:
        yield from (f"fault {fault} of carrier {carrier}" for fault in (*range(20, 29), *([29] if carrier == 3 else [])))
        yield f"dropped of carrier {carrier}"
        yield from (f"refusal {number} of carrier {carrier}" for number in (2, 3, 4))
        yield from (f"hint, {kind}, carrier {carrier}" for kind in ("refused", "all discarded", "nothing found"))
    for form, reasons in reference.REASONS.items():
        yield from (f"reason in {form}; {reason}" for reason in reasons)
    yield from ("fault 26", *(f"fault 26; parameter {key}" for key in ("mandatory", "alpn", "key4", "key65535", "key300")))
    yield from (f"fault 27; parameter {key}" for key in ("key4", "key6"))
    yield from (f"fault 28; parameter {key}" for key in ("mandatory", "alpn", "no-default-alpn", "port"))


def main(words):
    by_examples()
    fixed, seen = list(cases.fixed()), collections.Counter()
    for case in fixed:
        by_case(*case)
    whole = words != ["--reference"]
    count, seed = int(words[0]) if whole and words else 0, words[1] if len(words) > 1 else "1"
    every = fixed + [findings_random.case(f"{seed}/{k}") for k in range(count)]
    for case in every:
        reached(case, seen)
    for what in demanded():
        check(seen[what], "never reached:", what)
    if whole:
        by_values()
        with tempfile.TemporaryDirectory() as folder, concurrent.futures.ThreadPoolExecutor(4) as pool:
            for case, halves in zip(every, pool.map(lambda pair: by_program(folder, *pair), enumerate(every))):
                for wrong in halves:
                    check(not wrong, case[0], reference.CARRIERS[case[1]], f"area {case[2].hex()[:400]}", *wrong)
    print(f"findings: {len(fixed)} areas of the list, {count} random ones; reached: " + ", ".join(f"{what} {seen[what]}" for what in sorted(seen)))
    print(f"{counts[True]} passed, {counts[False]} failed")
    return counts[False] != 0


if __name__ == "__main__":
    sys.exit(main(sys.argv[1:]))
