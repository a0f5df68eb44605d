#!/usr/bin/env python3
"""Holds the tour of README.md against the programs: each command after `$ ` is run, and must print what stands below it."""
import os
import pathlib
import re
import subprocess
import sys
import tempfile

ROOT = pathlib.Path(__file__).resolve().parent.parent


def main():
    block = re.search(r"## A tour\n.*?```\n(.*?)```", (ROOT / "README.md").read_text(), re.S).group(1)
    steps = re.findall(r"^\$ (.*)\n((?:(?!\$ ).*\n)*)", block, re.M)
    wrong = 0
    with tempfile.TemporaryDirectory() as folder:
        for name in ("build", "examples"):
            os.symlink(ROOT / name, pathlib.Path(folder) / name)
        for command, expected in steps:
            done = subprocess.run(command, shell=True, cwd=folder, stdout=subprocess.PIPE, stderr=subprocess.STDOUT, text=True)
            if done.stdout != expected:
                wrong += 1
                print(f"$ {command}\n{done.stdout}(README.md has)\n{expected}")
    print(f"{len(steps) - wrong} of {len(steps)} commands of the tour print what README.md shows")
    return 1 if wrong or not steps else 0


sys.exit(main())
