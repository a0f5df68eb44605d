#!/bin/sh
# Runs every check of the repository and ends in 'N passed, M failed', each check counted; fails where one fails or did not run.
# Checks: rt ci (the layout of the sources, each crate, must-fail edit and program run, and that no edit is bad), the library built from the
# proved crate, its header held against the source, the host tests (cargo), the examples, the fuzzing corpus replayed, the pages and the citations
# of rules held against the sources, the vectors held against their generators, the command with its input forms, findings and output files,
# captures, and an installation.
set -u
cd "$(dirname "$0")/.."
log=$(mktemp -d) || exit 2
trap 'rm -rf "$log"' EXIT
passed=0
failed=0

# count NAME FILE: adds a tool's closing 'N passed, M failed'; a tool that closes on no such line has failed.
count() {
    line=$(grep -E '^[0-9]+ passed, [0-9]+ failed' "$2" | tail -1)
    if [ -z "$line" ]; then
        echo "gate: $1 did not report its count"
        failed=$((failed + 1))
        return
    fi
    set -- $line
    passed=$((passed + $1))
    failed=$((failed + $3))
}

# step NAME COMMAND..: one check that passes when the command does.
step() {
    name=$1
    shift
    if "$@"; then
        echo "gate: $name: ok"
        passed=$((passed + 1))
    else
        echo "gate: $name: FAILED"
        failed=$((failed + 1))
    fi
}

# rt ci passes where an edit is bad, which shows nothing of a contract; the gate does not. Once every crate is proved, make need not prove it.
rt_ci() {
    {
        rt ci 2>&1
        echo "$?" >"$log/status"
    } | tee "$log/rt"
    before=$failed
    count "rt ci" "$log/rt"
    if [ "$(cat "$log/status")" != 0 ] || ! grep -q '^rt: ok' "$log/rt"; then
        echo "gate: rt ci: FAILED"
        [ "$failed" -gt "$before" ] || failed=$((failed + 1))
        return
    fi
    mkdir -p target && touch target/proved
    if grep -qE '^rt: ok.*, 0*[1-9][0-9]* bad' "$log/rt"; then
        echo "gate: rt ci: a must-fail edit is bad: FAILED"
        failed=$((failed + 1))
    fi
}

# cargo prints 'test result: ok. N passed; M failed; ..' for each test program.
host_tests() {
    cargo test --quiet --offline --release --manifest-path host/Cargo.toml >"$log/cargo" 2>&1
    status=$?
    cat "$log/cargo"
    sums=$(sed -n 's/^test result: [a-zA-Z]*\. \([0-9]*\) passed; \([0-9]*\) failed.*/\1 \2/p' "$log/cargo" |
        awk '{p += $1; f += $2} END {print p + 0, f + 0}')
    set -- $sums
    if [ "$status" -ne 0 ] && [ "$2" -eq 0 ] || [ "$1" -eq 0 ]; then
        echo "gate: host tests: FAILED to run"
        failed=$((failed + 1))
    fi
    passed=$((passed + $1))
    failed=$((failed + $2))
}

# Waits for the command, which is built beside other checks.
command_built() {
    wait "$building"
    status=$?
    cat "$log/build"
    return "$status"
}

# Compiles exactly when the header says what the source exports.
header_held() {
    python3 tools/header.py include/dnr.h host/dnr/src/raw.rs crates/dnr/src/lib.rt crates/reading/src/lib.rt crates/answers/src/lib.rt crates/numbers/src/lib.rt \
        >"$log/header.c" &&
        gcc -std=gnu11 -fsyntax-only -Wall -Werror -I . "$log/header.c"
}

# tool NAME COMMAND..: a check that ends in its own 'N passed, M failed'.
tool() {
    name=$1
    shift
    "$@" 2>&1 | tee "$log/tool"
    count "$name" "$log/tool"
}

corpus_held() {
    python3 fuzz/corpus.py examples "$log/corpus" && diff -r "$log/corpus" fuzz/corpus
}

picture_held() {
    python3 tools/picture.py >"$log/picture.svg" && cmp "$log/picture.svg" docs/picture.svg
}

# made_anew PROGRAM WORDS..: the program's input and expected output are those that the generator makes.
made_anew() {
    program=$1
    shift
    mkdir "$log/$program" &&
        cargo run --quiet --offline --release --manifest-path host/Cargo.toml -p vectors -- "$@" "$log/$program" &&
        cmp "$log/$program/stdin" "crates/$program/stdin" && cmp "$log/$program/stdout" "crates/$program/stdout"
}

rt_ci
step "libdnr.a" sh tools/library.sh
# the command is built while the checks run that need the library alone
sh tools/build.sh >"$log/build" 2>&1 &
building=$!
step "include/dnr.h agrees with the source" header_held
tool "calls of the library" sh tools/symbols.sh
host_tests
tool "examples" sh tools/examples.sh
tool "replayed inputs" sh fuzz/replay.sh
step "fuzz/corpus is that of its script" corpus_held
step "docs/picture.svg is that of its script" picture_held
step "docs/PROOFS.md names theorems where they stand" python3 tools/theorems.py
step "docs/PROOFS.md lists what its statements rest on" python3 tools/believed.py
step "docs/TRACE.md has each rule, and names what is there" python3 tools/trace.py
step "citations are of rules that there are" python3 tools/citations.py
step "vectors are those of the reference" made_anew vectors
step "boundary cases are those of their generator" made_anew boundaries boundaries
step "build/dnr" command_built
tool "installation" sh tools/install.sh
tool "command" sh tools/command.sh
tool "output files" sh tools/files.sh
tool "input forms" python3 tools/forms.py
tool "random input forms" python3 tools/forms.py --random 300 1
tool "findings" python3 tools/findings.py 400 1
tool "captures" sh tools/capture.sh
step "the tour of README.md" python3 tools/tour.py
echo "$passed passed, $failed failed"
[ "$failed" -eq 0 ]
