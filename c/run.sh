#!/bin/sh
# Builds the static library and the program that tries it with gcc, and runs every case of the bench tool through it.
set -e
cd "$(dirname "$0")/.."
c/archive.sh
mkdir -p target/c
gcc -std=c11 -O2 -Wall -Wextra -Werror -Ic -o target/c/cases c/cases.c target/staticlib/libfirmware.a
target/c/cases < crates/wire/stdout
