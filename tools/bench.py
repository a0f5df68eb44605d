#!/usr/bin/env python3
"""Times the library beside the reference implementation, at four places: `tools/bench.py [--before OLD] [--rounds N] [WORD..]`.

The same machine code is faster or slower by where it stands. So host/bench is linked four times, with the library 0, 16, 32 and 48
octets past a multiple of 64, and each function of the Rust side at such a multiple. The four programs run in turn, N times (once where
nothing is said), and each number of a row is the median of what they print; "by place" has the least and the largest ratio. With --before
another version's library goes through the same, program by program in turn with this one: its time and ratio, and the change, are further
columns. OLD is its archive, libdnr.a, which is linked with this version's benchmark: the change is that of the ratio, and a row has `-` where
it answers differently. Where the structs of include/dnr.h are others, OLD is a folder, a checkout of that version in which make was run, so
that its target/staticlib/libdnr.a is there. Its own host/bench is built, and its ratio is that to its own reference; so the change is that of
the library's time, in per cent, and a row has `-` where it has none of that name and size. With words only the rows that have one of them in
their name are timed.
"""
import argparse
import hashlib
import os
import pathlib
import shutil
import statistics
import subprocess
import sys

ROOT = pathlib.Path(__file__).resolve().parent.parent
LIBRARY = "target/staticlib/libdnr.a"
PLACES = [0, 16, 32, 48]
HEADINGS = ["call", "octets", "library ns", "reference ns", "ratio", "by place", "octets/µs", "against memcpy", "growth ×2"]
# a retained section before the library's, so that a linker that drops what is not called keeps it
PAD = '.section .note.GNU-stack,"",@progbits\n.section .text.before,"axR",@progbits\n.balign 64\n.fill {}, 1, 0x90\n'


def build_folder(root):
    """Where cargo builds the benchmark of the checkout `root`: each other checkout has a folder of its own."""
    name = "host" if root == ROOT else "host-before-" + hashlib.sha256(bytes(root)).hexdigest()[:8]
    return ROOT / "target/bench" / name


def linked(version, root, library, place):
    """The benchmark's program of the checkout `root` with the library `place` octets past a multiple of 64."""
    folder = ROOT / "target/bench" / version / str(place)
    folder.mkdir(parents=True, exist_ok=True)
    subprocess.run(["as", "-o", folder / "pad.o"], input=PAD.format(place), text=True, check=True)
    subprocess.run(["ld", "-r", "-o", folder / "dnr.o", folder / "pad.o", "--whole-archive", library], check=True)
    (folder / "libdnr.a").unlink(missing_ok=True)
    subprocess.run(["ar", "rcs", folder / "libdnr.a", folder / "dnr.o"], check=True)
    build = build_folder(root)
    settings = {"DNR_LIB_DIR": str(folder), "CARGO_TARGET_DIR": str(build), "RUSTFLAGS": "-C llvm-args=-align-all-functions=6"}
    words = ["cargo", "build", "--quiet", "--offline", "--release", "--manifest-path", root / "host/Cargo.toml", "-p", "bench"]
    subprocess.run(words, env={**os.environ, **settings}, check=True)
    return shutil.copy(build / "release/bench", folder / "bench")


def rows(program, words):
    """What a program prints: for each name and number of octets the numbers of its columns, the growth where it has one."""
    printed = subprocess.run([program, *words], stdout=subprocess.PIPE, text=True, check=True).stdout
    table = {}
    for line in printed.splitlines()[2:]:
        name, octets, *numbers = (cell.strip() for cell in line.strip("|").split("|"))
        table[name, octets] = [None if n == "-" else float(n) for n in numbers]
    return table


def medians(runs, key):
    """The medians of the columns of a row, and all its ratios."""
    columns = zip(*(run[key] for run in runs))
    return [None if None in c else statistics.median(c) for c in columns], [run[key][2] for run in runs]


def row(key, now, before, apart):
    """A line of the table; `apart` if the other version is timed by a benchmark of its own."""
    (library, reference, ratio, speed, copy, growth), ratios = medians(now, key)
    cells = [*key, f"{library:.0f}", f"{reference:.0f}", f"{ratio:.2f}", f"{min(ratios):.2f} to {max(ratios):.2f}", f"{speed:.0f}", f"{copy:.1f}"]
    cells.append("-" if growth is None else f"{growth:.2f}")
    if before:
        if key in before[0]:
            (old, _, old_ratio, *_), _ = medians(before, key)
            change = f"{round(100 * (library - old) / old):+d} %" if apart else f"{ratio - old_ratio:+.2f}"
            cells += [f"{old:.0f}", f"{old_ratio:.2f}", change]
        else:
            cells += ["-"] * 3
    return "| " + " | ".join(cells) + " |"


def main():
    parser = argparse.ArgumentParser(description=__doc__.splitlines()[0])
    parser.add_argument("--before", type=pathlib.Path, metavar="OLD", help="another version: its libdnr.a, or a checkout of it that is built")
    parser.add_argument("--rounds", type=int, default=1, metavar="N", help="how often each program runs")
    parser.add_argument("words", nargs="*", metavar="WORD", help="time the rows that have one of these in their name")
    given = parser.parse_args()
    versions = {"now": (ROOT, ROOT / LIBRARY)}
    if given.before:
        old = given.before.resolve()
        versions["before"] = (old, old / LIBRARY) if old.is_dir() else (ROOT, old)
    for _, library in versions.values():
        if not library.exists():
            sys.exit(f"bench: {library} is not there: run make")
    apart = any(root != ROOT for root, _ in versions.values())
    programs = {version: [linked(version, *made, place) for place in PLACES] for version, made in versions.items()}
    runs = {version: [] for version in versions}
    for _ in range(given.rounds):
        for place in range(len(PLACES)):
            for version, made in programs.items():
                other = ["--before"] if version == "before" and not apart else []
                runs[version].append(rows(made[place], [*other, *given.words]))
    headings = HEADINGS + (["ns before", "ratio before", "change"] if given.before else [])
    print("| " + " | ".join(headings) + " |")
    print("|" + "---|" * len(headings))
    for key in runs["now"][0]:
        print(row(key, runs["now"], runs.get("before"), apart))


main()
