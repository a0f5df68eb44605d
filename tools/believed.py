#!/usr/bin/env python3
"""Holds the list of docs/PROOFS.md, "What must be believed", against the sources.

What a statement rests on is computed: the names in a theorem's type, or in a call's contract, the declarations that these are, the names in
those, and so on; proofs and the bodies of functions are not looked at. The page's two lists are the files reached so:

- from the statements that the page names as roots, each `file: name`: what must be believed;
- from every theorem of its tables and every contract of its calls besides: what is proved equal to it, or only speaks of it.

Each file on the list holds definitions alone. `tools/believed.py --why FILE` prints a way from a root to each declaration that is used in a file.
"""
import collections
import importlib.machinery
import importlib.util
import pathlib
import re
import sys

ROOT = pathlib.Path(__file__).resolve().parent.parent
PAGE = ROOT / "docs/PROOFS.md"


def tool(name):
    """Another tool of this folder, as a module."""
    loader = importlib.machinery.SourceFileLoader(name, str(ROOT / "tools" / name))
    module = importlib.util.module_from_spec(importlib.util.spec_from_loader(name, loader))
    sys.dont_write_bytecode = True
    loader.exec_module(module)
    return module


MOVED = tool("moved")
IMPORT = re.compile(r"(?:ghost )?use (Rattle\.([a-z0-9_]+)\.(?:specs|proofs)\.([A-Za-z0-9_.-]+?))(?:\.\{([^}]*)\}| as (\S+?));?$")
WORD = re.compile(r"[^\s(){}\[\],;]+")
BINDER = re.compile(r"[({]([^(){}:]+) :")
LAMBDA = re.compile(r"λ ([^.λ()]+)\.")
HEAD = re.compile(r"\bfn (\w+)\b(?:[^{;\[]|\[[^\]]*\])*?(?=\s(?:requires|ensures)\b)")
CLAUSE = re.compile(r"\s*(?:requires|ensures)\*?(?: \w+)? (?=\{)")
BODY = re.compile(r"\s*[{;]")

# One file: the names that it brings in, each as (file, name) or (file, None) for a whole module; its declarations by name
File = collections.namedtuple("File", "imports whole declared laws")
# text: what is looked through; law: only its type is
Declared = collections.namedtuple("Declared", "name text law")


def module_file(crate, path):
    """`crate/Module` of an import; a type that the code declares is its crate's source."""
    return f"{crate}/src" if path.startswith("declared.") else f"{crate}/{path.replace('.', '/')}"


def imported(lines, imports, whole):
    found = IMPORT.match(re.sub(r"\s+", " ", " ".join(lines)))
    if not found:
        return
    _, crate, path, names, alias = found.groups()
    file = module_file(crate, path)
    if alias:
        whole[alias] = file
    for name in (names or "").split(","):
        old, _, new = name.strip().partition(" as ")
        imports[new or old] = (file, old)


def parsed(text):
    imports, whole, declared, laws, last = {}, {}, {}, set(), None
    for heads, lines in MOVED.items(text):
        line = lines[0]
        if line.startswith("use "):
            imported(lines, imports, whole)
            continue
        defines, law = MOVED.DEFINES.match(line), MOVED.LAW.match(line)
        if defines or law:
            last = (defines or law)[1]
            declared[last] = Declared(last, [heads] + lines, not defines)
            if not defines:
                laws.add(last)
            if re.match(r"(?:pub )?(?:data|record) ", line):
                for inner in lines[1:]:
                    constructor = re.match(r"(?:pub )?(\S+) :", inner)
                    if constructor and " data " in f" {line}":
                        declared.setdefault(constructor[1], declared[last])
        elif last and not declared[last].law:
            declared[last].text.extend(lines)
    return File(imports, whole, declared, laws)


def clauses(text, at):
    """The clauses of a contract that begins at an index, each without its braces; a body, or nothing, follows them."""
    begin = at
    while clause := CLAUSE.match(text, at):
        start = at = clause.end()
        depth = 0
        while depth or at == start:
            depth += (text[at] == "{") - (text[at] == "}")
            at += 1
        yield text[start + 1 : at - 1]
    if at == begin or not BODY.match(text, at):
        sys.exit(f"believed.py: no contract that it can read: {text[begin:at + 60].strip()}")


def source(text):
    """Of a .rt file: imports, and each function's contract as a declaration."""
    text = re.sub(r"//.*", "", text)
    imports, whole, declared = {}, {}, {}
    for line in re.findall(r"^\s*(ghost use [^;]*;)", text, re.M):
        imported([line], imports, whole)
    for head in HEAD.finditer(text):
        declared[head[1]] = Declared(head[1], list(clauses(text, head.end())), True)
    return File(imports, whole, declared, set(declared))


def all_files():
    """Of specs/, of the laws that stand in proofs/ beside the folders of the functions, and of src/; Lib.antt only names the files beside it."""
    files = {}
    for path in [*sorted(ROOT.glob("crates/*/specs/**/*.antt")), *sorted(ROOT.glob("crates/*/proofs/*.antt"))]:
        crate, part = path.relative_to(ROOT / "crates").parts[:2]
        name = f"{crate}/{path.relative_to(ROOT / 'crates' / crate / part).with_suffix('')}"
        if name in files:
            sys.exit(f"believed.py: {name} stands in specs/ and in proofs/")
        if path.name != "Lib.antt":
            files[name] = parsed(path.read_text())
    for path in sorted(ROOT.glob("crates/*/src")):
        crate = path.parent.name
        files[f"{crate}/src"] = source("\n".join(p.read_text() for p in sorted(path.glob("*.rt"))))
    return files


def names_in(text):
    """The words of a declaration that are not bound in it."""
    joined = " ".join(text)
    bound = {w for group in BINDER.findall(joined) + LAMBDA.findall(joined) for w in group.split()}
    for word in WORD.findall(joined):
        word = word.rstrip(".")
        if word and not word.startswith(".") and word.partition(".")[0] not in bound:
            yield word


def used(files, file, declared):
    """(file, name) of each name that a declaration uses and that this repository declares; a clause of src/ names no function of the code."""
    own = files[file]
    code = file.endswith("/src")
    for word in names_in(declared.text):
        head, _, rest = word.partition(".")
        if head in own.whole and rest:
            yield own.whole[head], rest.split(".")[0]
        for name in dict.fromkeys((word, head)):
            if not code and name in own.declared and own.declared[name] is not declared:
                yield file, name
            elif name in own.imports:
                yield own.imports[name]


def reached(files, roots):
    """Each declaration that is reached from the roots, with the one that it was reached from."""
    came, todo = {}, collections.deque((root, None) for root in roots)
    while todo:
        (file, name), before = todo.popleft()
        if file not in files or name not in files[file].declared:
            continue
        declared = files[file].declared[name]
        key = (file, declared.name)
        if key not in came:
            came[key] = before
            todo.extend((found, key) for found in used(files, file, declared))
    return came


# ---- the page

THEOREM = re.compile(r"^\| `([^`]+)` \|.*\| `([a-z0-9_]+/[A-Za-z0-9]+)` \|[^|]*\|$", re.M)
FILE = re.compile(r"`([a-z0-9_]+/[A-Z][A-Za-z0-9]*)`")
ROOTS = re.compile(r"`([a-z0-9_]+/[A-Z][A-Za-z0-9]*)`: ((?:`[^`]+`(?:, )?)+)")


def part(page, heading):
    """What stands below a heading, up to the next of its level or above."""
    level = len(heading) - len(heading.lstrip("#"))
    below = page.split(f"\n{heading}\n", 1)[1]
    return re.split(rf"^#{{1,{level}}} ", below, maxsplit=1, flags=re.M)[0]


def called(page):
    """Each call of the table of calls as (file, function)."""
    rows = re.findall(r"^\| ((?:`[^`]+`(?:, )?)+) \|", part(page, "## The calls"), re.M)
    for name in re.findall(r"`([^`]+)`", " ".join(rows)):
        place, _, function = name.rpartition("::")
        crate, _, _ = place.partition("::")
        yield f"{crate or 'dnr'}/src", function


def specs(came):
    """The files of definitions among those that were reached."""
    return {file for file, _ in came if not file.endswith("/src")}


def compare(heading, named, found):
    for file in sorted(found - named):
        yield f"{file}: statements rest on it, but it is not named under '{heading}'"
    for file in sorted(named - found):
        yield f"{file}: named under '{heading}', but nothing rests on it"


def why(came, file):
    for key in (k for k in came if k[0] == file):
        way = [key]
        while came[way[-1]]:
            way.append(came[way[-1]])
        print(" <- ".join(f"{f}:{n}" for f, n in way))


def main():
    files, page = all_files(), PAGE.read_text()
    believe, equal = "### To believe", "### Proved equal"
    head, _, listed = part(page, believe).partition("\n\nThe files")
    roots = [(file, name) for file, names in ROOTS.findall(head) for name in re.findall(r"`([^`]+)`", names)]
    statements = [(file, name) for name, file in THEOREM.findall(page)]
    first = reached(files, roots)
    every = reached(files, roots + statements + list(called(page)))
    if sys.argv[1:2] == ["--why"]:
        why(first if any(f == sys.argv[2] for f, _ in first) else every, sys.argv[2])
        return 0
    missing = [f"{f}: {n} is not declared there" for f, n in roots + list(called(page)) if f not in files or n not in files[f].declared]
    used_in = {key for key in every if not key[0].endswith("/src") and key not in statements}
    proofs = sorted({f for f, _ in used_in if files[f].laws})
    wrong = missing + [f"{f}: statements rest on a definition in it, and it holds proofs" for f in proofs]
    wrong += compare(believe, set(FILE.findall(listed)), specs(first))
    rest = {f for f, _ in used_in} - specs(first)
    wrong += compare(equal, set(FILE.findall(part(page, equal))), rest)
    print("\n".join(wrong), end="\n" if wrong else "")
    print(f"{len(specs(first))} files to believe, {len(rest)} proved equal to them or between, {len(statements)} theorems, {len(wrong)} faults in the page")
    return 1 if wrong or not roots or not statements else 0


sys.exit(main())
