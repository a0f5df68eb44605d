#!/usr/bin/env python3
"""Holds docs/PROOFS.md against the sources: each theorem named in a table is declared, under that name, in the file beside it, which stands in the
crate's specs/ or in its proofs/."""
import pathlib
import re
import sys

ROOT = pathlib.Path(__file__).resolve().parent.parent
ROW = re.compile(r"^\| `([^`]+)` \|.*\| `([a-z0-9_]+)/([A-Za-z0-9]+)` \|[^|]*\|$")


def main():
    rows = [m for m in map(ROW.match, (ROOT / "docs/PROOFS.md").read_text().splitlines()) if m]
    wrong = []
    for name, crate, module in (m.groups() for m in rows):
        files = [ROOT / "crates" / crate / part / f"{module}.antt" for part in ("specs", "proofs")]
        found = [file for file in files if file.is_file()]
        declared = re.compile(rf"^\s*pub {re.escape(name)} :", re.M)
        if len(found) != 1 or not declared.search(found[0].read_text()):
            wrong.append(f"{name}: not declared in one file {module}.antt of crates/{crate}/specs and crates/{crate}/proofs")
    print("\n".join(wrong), end="\n" if wrong else "")
    print(f"{len(rows) - len(wrong)} theorems named in docs/PROOFS.md are where it says")
    return 1 if wrong or not rows else 0


sys.exit(main())
