"""Holds what dnr-capture --json prints against the facts of make.py, and each result against dnr on the area that was put in.

usage: facts.py DNR NAME.facts PRINTED
"""
import json
import re
import subprocess
import sys


def answer(dnr, fact):
    """What dnr says of the area of a fact: a result and the messages after it, or the number of a refusal. Standard error has the same messages."""
    area = bytes.fromhex(fact["area"])
    run = subprocess.run([dnr, "read", fact["protocol"], "--raw", "--json"], input=area, capture_output=True, check=False)
    said = [line.removeprefix("dnr: standard input: ") for line in run.stderr.decode("ascii").splitlines()]
    if run.returncode != 0:
        return {"refusal": int(re.fullmatch(r"refused, (\d+): .*", said[0])[1])}
    first, *rest = (json.loads(line) for line in run.stdout.splitlines())
    return {"result": first, "messages": [{**told, "message": line} for told, line in zip(rest, said, strict=True)] or None}


def held(dnr, fact, said):
    """The differences between a fact and what was said of it."""
    wanted = {"relays": [], **fact}
    if "area" in fact:
        wanted.update(answer(dnr, fact))
    got = {**said, "refusal": said.get("refusal", {}).get("number")}
    outcomes = {"result", "refusal", "truncated"} & said.keys()
    if len(outcomes) != 1:
        yield f"frame {fact['frame']}: the outcomes are {sorted(outcomes)}"
    for key, value in wanted.items():
        if got.get(key) != value:
            yield f"frame {fact['frame']}: {key} is {got.get(key)} instead of {value}"


def main():
    dnr, facts, printed = sys.argv[1:]
    facts, printed = ([json.loads(line) for line in open(path, encoding="ascii")] for path in (facts, printed))
    wrong = [line for fact, said in zip(facts, printed) for line in held(dnr, fact, said)]
    if len(facts) != len(printed):
        wrong.append(f"{len(printed)} messages instead of {len(facts)}")
    sys.exit("\n".join(wrong) or 0)


main()
