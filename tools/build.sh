#!/bin/sh
# Builds the command: build/dnr, the program of the proved crate `tool`. rt run proves what has changed in the crate and below it, compiles and links it, and
# runs it once.
set -eu
cd "$(dirname "$0")/.."
(cd crates/tool && rt run -- --version >/dev/null)
mkdir -p build
cp crates/tool/out/tool build/dnr
