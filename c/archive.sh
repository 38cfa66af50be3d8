#!/bin/sh
# Builds the static library for C: target/staticlib/libfirmware.a.
set -e
cd "$(dirname "$0")/.."
(cd crates/firmware && rt lib)
mkdir -p target/staticlib
cp crates/firmware/out/libfirmware.a target/staticlib/libfirmware.a
