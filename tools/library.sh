#!/bin/sh
# Builds target/staticlib/libdnr.a, the archive of the proved crate dnr: rt lib proves what has changed in the crate and below it, and compiles it.
set -eu
cd "$(dirname "$0")/.."
(cd crates/dnr && rt lib)
mkdir -p target/staticlib
cp crates/dnr/out/libdnr.a target/staticlib/libdnr.a
