#!/bin/sh
# run.sh SECONDS: builds both.c with clang for libFuzzer and runs it for so long, starting from the corpus.
# What it finds worth keeping goes to build/fuzz/found, and an input on which it stopped to build/fuzz; `sh fuzz/replay.sh FILE` runs
# that one again. DNR_LIB_DIR names the folder of libdnr.a, else make builds it where it is not there.
set -eu
cd "$(dirname "$0")/.."
library=${DNR_LIB_DIR:-target/staticlib}/libdnr.a
[ -e "$library" ] || make --no-print-directory -s "$library"
mkdir -p build/fuzz/found
# The library is machine code and cannot be instrumented; the branches and comparisons of the reference guide the fuzzer instead.
RUSTFLAGS="-C codegen-units=1 -C passes=sancov-module -C llvm-args=-sanitizer-coverage-level=3 \
    -C llvm-args=-sanitizer-coverage-inline-8bit-counters -C llvm-args=-sanitizer-coverage-pc-table \
    -C llvm-args=-sanitizer-coverage-trace-compares" \
    CARGO_TARGET_DIR=build/fuzz/target cargo build --quiet --offline --release --manifest-path host/Cargo.toml -p fuzz
clang -std=c11 -O2 -Wall -Wextra -Werror -fsanitize=fuzzer -I include fuzz/both.c build/fuzz/target/release/libref.a "$library" \
    -o build/fuzz/both
exec build/fuzz/both -max_len=41000 -max_total_time="$1" -artifact_prefix=build/fuzz/ -print_final_stats=1 build/fuzz/found fuzz/corpus
