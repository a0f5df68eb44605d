#!/usr/bin/env python3
"""header.py HEADER RAW.rs LIB.rt [MORE.rt..]: holds a C header and its Rust declarations against the Rattle source.

Writes C to standard output that compiles (gcc -fsyntax-only -Werror) exactly when the header declares every exported function of LIB.rt
with the parameters and the result of the source, the #[repr(C)] structs of all sources have in the header the same fields in order,
type and size, and the refusals, faults and limits of the sources have in the header the same numbers. A function that the source does not
export and the header declares is found by its name. RAW.rs has the same structs with the same fields, and a declaration of each function.
The sources are LIB.rt, the others that are named, and those beside it of the crates whose functions it calls.
"""
import pathlib
import re
import sys

NUMBERS = {
    "u8": "uint8_t", "u16": "uint16_t", "u32": "uint32_t", "u64": "uint64_t", "usize": "size_t",
    "i8": "int8_t", "i16": "int16_t", "i32": "int32_t", "i64": "int64_t", "isize": "ptrdiff_t", "bool": "_Bool",
}
PREFIX = "dnr_"
FIELD = r"(?:pub )?(\w+): (?:(\w+)|\[(\w+); (\w+)\]),"
STRUCT = r"#\[repr\(C\)\]\s*(?:#\[derive\([^]]*\)\]\s*)?pub struct (\w+) \{(.*?)\}"
# The prefix of the numbers of each type in the header, and whether it has them all.
NUMBERED = {"Refusal": ("DNR_REFUSAL_", True), "Fault": ("DNR_FAULT_", True), "Limit": ("DNR_MAX_", False)}


def plain(*paths):
    """What stands in some files of Rattle or Rust, without comments."""
    return "\n".join(re.sub(r"//.*", "", open(path).read()) for path in paths)


class Source:
    """The structs, the constants and the numbered cases of some files; what is wrong with them is kept as lines of C that do not compile."""

    def __init__(self, paths):
        text = plain(*paths)
        self.numbers = dict(re.findall(r"\bconst (\w+): usize = (\d+);", text))
        self.limits = dict(re.findall(r"^pub const (MAX_\w+): usize = (\d+);", text, re.M))
        self.structs = dict(re.findall(STRUCT, text, re.S))
        self.types = {name: dict(re.findall(r"const (\w+): usize = (\d+);", body)) for name, body in re.findall(r"^impl (\w+) \{(.*?)^\}", text, re.S | re.M)}
        # an enum's cases with numbers, each by the name that C has for it: SheetCarrier is SHEET_CARRIER
        for name, body in re.findall(r"^pub enum (\w+) \{(.*?)^\}", text, re.S | re.M):
            cases = re.findall(r"^    (\w+) = (\d+),", body, re.M)
            self.types[name] = {**self.types.get(name, {}), **{re.sub(r"(?<!^)([A-Z])", r"_\1", case).upper(): number for case, number in cases}}
        self.errors = []

    def c_type(self, name):
        """The C type of a Rattle number, or of a struct of the sources, in lower case behind the prefix."""
        if name not in NUMBERS and name not in self.structs:
            self.errors.append(f"#error {name} is neither a number nor a #[repr(C)] struct of the sources")
        return NUMBERS.get(name, PREFIX + name.lower())

    def c_parameter(self, name, kind):
        """A slice is a pointer and a length; one of octets that is named text holds characters."""
        slice_of = re.fullmatch(r"&(mut )?\[(\w+)\]", kind)
        if slice_of:
            const = "" if slice_of.group(1) else "const "
            element = "char" if (name, slice_of.group(2)) == ("text", "u8") else self.c_type(slice_of.group(2))
            return f"{const}{element} *{name}, size_t {name}_len"
        return f"{self.c_type(kind)} {name}"

    def c_fields(self, struct):
        """Name and C declaration of each field: a number, a struct, or an array of either."""
        body = self.structs[struct]
        if re.sub(FIELD, "", body).strip():
            self.errors.append(f"#error {struct} has a field that is no number, struct or array")
        for name, kind, element, count in re.findall(FIELD, body):
            size = f"[{self.numbers.get(count, count)}]" if count else ""
            yield name, f"{self.c_type(kind or element)} {name}{size};"


def hold_structs(source):
    for name in source.structs:
        fields = list(source.c_fields(name))
        mine, theirs = "source_" + name, PREFIX + name.lower()
        print("typedef struct {", " ".join(declaration for _, declaration in fields), "}", mine + ";")
        print(f'_Static_assert(sizeof({mine}) == sizeof({theirs}), "{name}");')
        for f, _ in fields:
            print(
                f"_Static_assert(offsetof({mine}, {f}) == offsetof({theirs}, {f}) && __builtin_types_compatible_p("
                f'__typeof__((({mine} *)0)->{f}), __typeof__((({theirs} *)0)->{f})), "{name}.{f}");'
            )


def hold_numbers(source, header):
    for kind, (prefix, all_of_them) in NUMBERED.items():
        if not source.types.get(kind):
            source.errors.append(f"#error the sources have no {kind}")
        for name, number in source.types.get(kind, {}).items():
            if all_of_them or re.search(rf"\b{prefix}{name}\b", header):
                print(f'_Static_assert({prefix}{name} == {number}, "{kind}::{name}");')
    for name, number in source.limits.items():
        print(f'_Static_assert(DNR_{name} == {number}, "{name}");')


def rust_parameter(name, kind):
    """A parameter as Rust declares it for C."""
    slice_of = re.fullmatch(r"&(mut )?\[(\w+)\]", kind)
    if slice_of:
        element = "c_char" if (name, slice_of.group(2)) == ("text", "u8") else slice_of.group(2)
        return f"{name}: *{'mut' if slice_of.group(1) else 'const'} {element}, {name}_len: usize"
    return f"{name}: {kind}"


def hold_rust(source, path, functions):
    text = plain(path)
    theirs = {name: re.findall(FIELD, body) for name, body in re.findall(STRUCT, text, re.S)}
    theirs.update({name: rest for name, rest in re.findall(r"pub fn (\w+)(\(.*?);", text)})
    mine = {name: re.findall(FIELD, body) for name, body in source.structs.items()}
    for name, parameters, result in functions:
        mine[name] = f"({', '.join(rust_parameter(*p) for p in parameters)})" + (f" -> {result}" if result else "")
    source.errors += [f"#error {name} differs in {path}" for name in sorted(mine.keys() | theirs) if mine.get(name) != theirs.get(name)]


def exports(text):
    """Name, parameters and result of each function that a source exports."""
    pattern = r'#\[unsafe\(no_mangle\)\]\s*pub extern "C" fn (\w+)\((.*?)\)(?: -> (\w+))?\s*(?:requires|ensures|\{)'
    for name, parameters, result in re.findall(pattern, text, re.S):
        yield name, re.findall(r"(\w+): (&(?:mut )?\[\w+\]|\w+)", parameters), result


def called(library):
    """The sources of the crates that stand beside a library's and of which it names a function or a type."""
    crates = pathlib.Path(library).parent.parent.parent
    paths = [crates / name / "src" / "lib.rt" for name in sorted(set(re.findall(r"\b(\w+)::", plain(library))))]
    return [path for path in paths if path.exists()]


def main(header, rust, library, *more):
    text = plain(library)
    said = re.sub(r"/\*.*?\*/", "", open(header).read(), flags=re.S)
    declared = set(re.findall(r"\b(%s\w+)\(" % PREFIX, said))
    source = Source((library, *more, *called(library)))
    print(f'#include "{header}"')
    functions = list(exports(text))
    exported = {name for name, _, _ in functions}
    hold_structs(source)
    hold_numbers(source, said)
    hold_rust(source, rust, functions)
    for name, parameters, result in functions:
        print(f"{source.c_type(result) if result else 'void'} {name}({', '.join(source.c_parameter(*p) for p in parameters) or 'void'});")
    for name in sorted(declared - exported):
        print(f"#error {name} is declared and not exported")
    for name in sorted(exported - declared):
        print(f"#error {name} is exported and not declared")
    if not exported:
        print("#error the source exports nothing")
    print("\n".join(source.errors))


main(*sys.argv[1:])
