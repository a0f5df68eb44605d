#!/usr/bin/env python3
"""Brings the repository's own names in specs/, proofs/, clauses and must-fail edits to the spelling of today's Rattle: words in snake case.

usage: tools/respell.py

Run it once at the top of a tree that the kit's port.py has turned. A name of two words, as headOf, becomes head_of, and a name of parts joined by dashes
keeps its dashes. Types, modules, functions of src/, exported C names and strings keep theirs. It prints what falls together.
"""
import os
import re
import sys

TOKEN = re.compile(r"(?<![\w'-])[a-z][\w'-]*")
CAMEL = re.compile(r"[a-z0-9][A-Z]")
# lemmas of one file that would fall together with a definition in its new spelling: they get the ending of a lemma with its function's name
LEMMAS = {
    "crates/frames/specs/SkipLaws.antt": ["head_at"],
    "crates/hexes/specs/DecodingLaws.antt": ["no_room"],
    "crates/hexes/proofs/decode/Proof.antt": ["no_room"],
    "crates/roundtrip/specs/RoundTripLaws.antt": ["front_of"],
    "crates/svcparams/specs/MergeTurns.antt": ["in_list", "in_field"],
    "crates/taking/specs/WalkLaws.antt": ["full_at"],
}
# lemmas' names after words of the library that have new names there
WORDS = {"getD": "get_or"}

# constructors, fields and definitions whose dash joins two plain words
UNDERSCORES = set(
    """
    address-length after-options at-blank at-break at-end bad-at beside-is by-line by-list carriage-return dot-far dot-last first-faulty first-records
    front-more full-form gap-blank gap-mark hyphen-far hyphen-last in-name is-done later-faulty laying-step line-break line-feed name-only
    next-line no-blank no-break no-carrier no-ex no-instance no-letters no-mark none-discarded not-acceptable of-instance of-option one-body other-version
    parameters-allowed quotation-mark reserved-is router-layout solid-is stands-room to-come weighing-step yields-on
    """.split()
)


def snake(name):
    if name in UNDERSCORES:
        return name.replace("-", "_")
    parts = []
    for part in name.split("-"):
        part = WORDS.get(part, part)
        if CAMEL.search(part) and part[:1].islower():
            part = re.sub(r"(?<=[a-z0-9'])(?=[A-Z])", "_", part)
            part = re.sub(r"(?<=[A-Z])(?=[A-Z][a-z])", "_", part).lower()
        parts.append(part)
    return "-".join(parts)


# what is a string, a comment, or neither; a string may go over several lines, and a quotation mark may stand as a character
PIECES = re.compile(r'(?P<string>b?"(?:[^"\\]|\\.)*"|b\'"\')|(?P<comment>(?:--|//)[^\n]*)', re.S)
# a word of RFC 9460, which comments have as it is written there
WORDS_OF_PROSE = {"keyN"}


def in_prose(name):
    return name if name in UNDERSCORES or name in WORDS_OF_PROSE else snake(name)


def respelled(text):
    out, at = [], 0
    for m in PIECES.finditer(text):
        out.append(TOKEN.sub(lambda n: snake(n.group()), text[at : m.start()]))
        out.append(m.group() if m.group("string") else TOKEN.sub(lambda n: in_prose(n.group()), m.group()))
        at = m.end()
    out.append(TOKEN.sub(lambda n: snake(n.group()), text[at:]))
    return "".join(out)


def files(root):
    for folder, dirs, names in os.walk(os.path.join(root, "crates")):
        dirs[:] = sorted(d for d in dirs if d != "out")
        for f in sorted(names):
            if f.endswith((".antt", ".rt", ".edit")):
                yield os.path.join(folder, f)


def names_in(text):
    return set(TOKEN.findall(text))


def main():
    root = os.getcwd()
    for path in files(root):
        with open(path, encoding="utf-8") as f:
            text = f.read()
        before = text
        for name in LEMMAS.get(os.path.relpath(path, root), []):
            text = re.sub(rf"(?<![\w'.-]){name}(?![\w'-])", name + "_lem", text)
        plain = names_in(re.sub(r"(?m)--.*$|//.*$", "", text))
        turned = {n: snake(n) for n in plain if snake(n) != n}
        for old, new in sorted(turned.items()):
            if new in plain:
                print(f"falls together: {os.path.relpath(path, root)}: {old} -> {new}")
        new = respelled(text)
        if new != before:
            with open(path, "w", encoding="utf-8") as f:
                f.write(new)


if __name__ == "__main__":
    main()
