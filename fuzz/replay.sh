#!/bin/sh
# Builds both.c with replay.c and runs every input of the corpus through it once; other inputs may be named instead.
# DNR_LIB_DIR names the folder of libdnr.a, else make builds it where it is not there. Ends in 'N passed, M failed'.
set -u
cd "$(dirname "$0")/.." || exit 2
library=${DNR_LIB_DIR:-target/staticlib}/libdnr.a
[ -e "$library" ] || make --no-print-directory -s "$library"
[ "$#" -gt 0 ] || set -- fuzz/corpus/*
mkdir -p build/fuzz || exit 2
cargo build --quiet --offline --release --manifest-path host/Cargo.toml -p fuzz &&
    ${CC:-gcc} -std=c11 -O2 -Wall -Wextra -Wpedantic -Werror -I include fuzz/both.c fuzz/replay.c \
        "${CARGO_TARGET_DIR:-host/target}/release/libref.a" "$library" -o build/fuzz/replay || {
    echo "0 passed, 1 failed"
    exit 1
}
if build/fuzz/replay "$@" >build/fuzz/replayed; then
    echo "$# passed, 0 failed"
else
    echo "replay: $(tail -n 1 build/fuzz/replayed): FAILED"
    echo "$(($(wc -l <build/fuzz/replayed) - 1)) passed, 1 failed"
    exit 1
fi
