#!/usr/bin/env python3
"""Holds docs/TRACE.md against the sources and the rules: each definition it names is declared in the file beside it, in specs/ or proofs/, each theorem
somewhere in the specifications or among the laws of proofs/, each must-fail edit is there; each rule of docs/RULES.md has a row (the forms in
docs/DECISIONS.md), and each row a rule. A name with an underscore in the column of contracts and theorems may also be a function of the sources."""
import pathlib
import re
import sys

ROOT = pathlib.Path(__file__).resolve().parent.parent
NAMES = r"((?:`[^`]+`(?!:)(?:, )?)+)"
DEFINED = re.compile(r"`([a-z0-9_]+)/([A-Z][A-Za-z0-9]*)`: " + NAMES)
EDITS = re.compile(r"\b([a-z0-9_]+)/must-fail: " + NAMES)
THEOREM = re.compile(r"`([a-z0-9_]+(?:-[a-z0-9_]+)+)`")
HOLDING = re.compile(r"`([a-z0-9]+(?:_[a-z0-9]+)+)`")
DECLARED = r"^\s*(?:(?:abbrev|unfoldable) )?pub (?:record |data )?{}(?= )"
FUNCTION = r"\bfn {}\b"
RULE = re.compile(r"^(?:\*\*|\| )([A-Z]\d+)(?:\*\*| \|)", re.M)
ROW = re.compile(r"^\| ([A-Z]\d+) ", re.M)


def page(name):
    return (ROOT / "docs" / name).read_text()


def names(run):
    return re.findall(r"`([^`]+)`", run)


def below(pattern):
    return "\n".join(file.read_text() for file in sorted(ROOT.glob(pattern)))


def wrong_in(row, specs, code):
    for crate, module, run in DEFINED.findall(row):
        files = [ROOT / "crates" / crate / part / f"{module}.antt" for part in ("specs", "proofs")]
        found = [file for file in files if file.is_file()]
        text = found[0].read_text() if len(found) == 1 else ""
        for name in names(run):
            if not re.search(DECLARED.format(re.escape(name)), text, re.M):
                yield f"{name}: not declared in one file {module}.antt of crates/{crate}/specs and crates/{crate}/proofs"
    for name in THEOREM.findall(row):
        if not re.search(DECLARED.format(name), specs, re.M):
            yield f"{name}: no such theorem"
    for name in HOLDING.findall("".join(row.split(" | ")[2:3])):
        if not re.search(DECLARED.format(name), specs, re.M) and not re.search(FUNCTION.format(name), code):
            yield f"{name}: no such theorem or function"
    for crate, run in EDITS.findall(row):
        for name in names(run):
            if not (ROOT / "crates" / crate / "must-fail" / f"{name}.edit").is_file():
                yield f"{name}: no such edit in crates/{crate}/must-fail"


def without_row(trace):
    """Rules that have no row, and rows that have no rule; the rows of the forms are those of docs/DECISIONS.md."""
    rules = set(RULE.findall(page("RULES.md")))
    forms = {rule for rule in ROW.findall(page("DECISIONS.md")) if rule.startswith("F")}
    rows = set(ROW.findall(trace)) | forms
    yield from (f"{rule}: no row" for rule in sorted(rules - rows))
    yield from (f"{rule}: no such rule" for rule in sorted(rows - rules))


def main():
    trace = page("TRACE.md")
    specs, code = below("crates/*/specs/**/*.antt") + below("crates/*/proofs/*.antt"), below("crates/*/src/**/*.rt")
    rows = [row for row in trace.splitlines() if row.startswith("| ")]
    wrong = [fault for row in rows for fault in wrong_in(row, specs, code)] + list(without_row(trace))
    print("\n".join(wrong), end="\n" if wrong else "")
    print(f"{len(rows)} rows of docs/TRACE.md, {len(wrong)} faults")
    return 1 if wrong or not rows else 0


sys.exit(main())
