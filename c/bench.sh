#!/bin/sh
# Measures the static library against plain C at -O3.
set -e
cd "$(dirname "$0")/.."
c/archive.sh
mkdir -p target/c
gcc -std=c11 -O3 -Wall -Wextra -Werror -Ic -o target/c/bench c/bench.c c/plain.c target/staticlib/libfirmware.a
target/c/bench
