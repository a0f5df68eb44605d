#!/bin/sh
# Builds the C and the Rust example, runs both on each examples/NAME-CARRIER.hex, and compares what they print with the .out beside it.
# DNR_LIB_DIR names the folder of libdnr.a. Ends in 'N passed, M failed'.
set -u
cd "$(dirname "$0")/.." || exit 2
DNR_LIB_DIR=${DNR_LIB_DIR:-$PWD/target/staticlib}
export DNR_LIB_DIR
work=$(mktemp -d) || exit 2
trap 'rm -rf "$work"' EXIT
passed=0
failed=0

# same NAME EXPECTED PROGRAM ARGUMENTS..: one check that passes when the program prints the expected file.
same() {
    name=$1
    expected=$2
    shift 2
    "$@" >"$work/out"
    if diff "$expected" "$work/out"; then
        passed=$((passed + 1))
    else
        echo "examples: $name: FAILED"
        failed=$((failed + 1))
    fi
}

${CC:-cc} -std=c11 -O2 -Wall -Wextra -Wpedantic -Werror -I include examples/resolvers.c -L "$DNR_LIB_DIR" -ldnr -o "$work/c" &&
    cargo build --quiet --offline --release --manifest-path host/Cargo.toml -p dnr --example resolvers &&
    cp "${CARGO_TARGET_DIR:-host/target}/release/examples/resolvers" "$work/rust" || failed=1
# K5 with an underscore for the first dot of its name, which stands behind the header, 4 octets of fields and 16 of the address.
sed 's/31 2e 65/31 5f 65/' examples/k05-ike6.hex >"$work/name.hex"
why='the name is no host name: labels of 1 to 63 letters, digits and inner hyphens, 255 octets in all'
echo "ike6: 1 found, 1 discarded, first fault 22 at octet 28 of its block: $why" >"$work/name.out"
[ "$failed" -eq 0 ] && for language in c rust; do
    same "$language, built in" examples/k01-dhcp6.out "$work/$language"
    same "$language, a bad name" "$work/name.out" "$work/$language" ike6 "$work/name.hex"
    for hex in examples/*-*.hex; do
        piece=$(basename "$hex" .hex)
        same "$language, $piece" "examples/$piece.out" "$work/$language" "${piece##*-}" "$hex"
    done
done
echo "$passed passed, $failed failed"
[ "$failed" -eq 0 ]
