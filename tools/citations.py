#!/usr/bin/env python3
"""Holds every citation of a rule against docs/RULES.md: the sources, tests, tools and pages cite `RULES` and ids that it has, and no paper in another form."""
import pathlib
import re
import sys

ROOT = pathlib.Path(__file__).resolve().parent.parent
FOLDERS = ["crates", "host", "tools", "fuzz", "include", "examples", "tests", "docs"]
KINDS = {".antt", ".rt", ".edit", ".rs", ".c", ".h", ".py", ".sh", ".md", ".toml", ".svg", ""}
DATA = {"target", "out", "corpus", "stdin", "stdout"}
ID = r"(?:[A-Z]\d+|Q[a-z])\b"
# a blank, or a line break within a comment
GAP = r"(?: |\n[ \t]*(?://[/!]?|--|#|\*)?[ \t]*)"
RULE = re.compile(r"^(?:\*\*|\| )([A-Z]\d+)(?:\*\*| \|)|\*\*(Q[a-z])\*\*", re.M)
CITED = re.compile(rf"\bRULES{GAP}({ID}(?:(?:,|;| to| and){GAP}{ID})*)")
# the forms that there were: a paper by its number, with or without a heading, and a point of an older list
OLD = re.compile(rf"\b[Dd]ocuments?{GAP}0\d|\b[Pp]oints?{GAP}[A-Z]\d+\b|\(0[0-2](?:[,;)]|{GAP}[A-Z])|; 0[0-2],?{GAP}[A-Z]|-- 0[0-2], |\b0[0-2], \"")


def files():
    yield from (ROOT / name for name in ["README.md", "Makefile", "crates.txt"])
    for path in (p for folder in FOLDERS for p in sorted((ROOT / folder).rglob("*"))):
        if path.is_file() and path.suffix in KINDS and not DATA & set(path.relative_to(ROOT).parts):
            yield path


def wrong_in(text, rules):
    """(place, fault) of each citation that is none."""
    for old in OLD.finditer(text):
        yield old.start(), f"'{' '.join(old[0].split())}'"
    for run in CITED.finditer(text):
        yield from ((run.start(), f"RULES has no {rule}") for rule in re.findall(ID, run[1]) if rule not in rules)


def main():
    rules = {first or later for first, later in RULE.findall((ROOT / "docs/RULES.md").read_text())}
    wrong, cited = [], 0
    for path in files():
        text = path.read_text(errors="replace")
        cited += len(CITED.findall(text))
        wrong += [f"{path.relative_to(ROOT)}:{text.count(chr(10), 0, at) + 1}: {fault}" for at, fault in wrong_in(text, rules)]
    print("\n".join(wrong), end="\n" if wrong else "")
    print(f"{cited} citations of rules, {len(wrong)} that are none")
    return 1 if wrong or not cited else 0


sys.exit(main())
