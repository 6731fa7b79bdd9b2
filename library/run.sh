#!/bin/sh
# Builds the static library and the C program over it, runs the program, and compares what it prints
# with `expected`. The library is for x86-64.
set -eu
cd "$(dirname "$0")"
. ../need.sh
need rt "${CC:-cc}"
../build_library.sh
out=../target/library
mkdir -p "$out"
${CC:-cc} -std=c99 -O2 -Wall -Wextra -Werror -o "$out/example" example.c ../target/staticlib/libscript.a
"$out/example" >"$out/printed"
diff expected "$out/printed"
echo 'library: the C program prints what is expected'
