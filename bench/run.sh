#!/bin/sh
# Builds the static library, counts its copies and its stack, and races it with the Rust original; prints
# two tables in Markdown.
set -eu
cd "$(dirname "$0")"
. ../need.sh
need rt cargo "${CC:-cc}"
target=$(cd .. && pwd -P)/target
../build_library.sh
PASS_PLANNER=$target/staticlib/libscript.a
${CC:-cc} -std=c99 -D_POSIX_C_SOURCE=200809L -O2 -fno-builtin -Wall -Wextra -Werror -pthread -o "$target/measure" measure.c "$PASS_PLANNER"
"$target/measure"
export PASS_PLANNER CARGO_TARGET_DIR="$target/bench"
cargo run --release --offline
