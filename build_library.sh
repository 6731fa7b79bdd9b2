#!/bin/sh
# Proves the library for programs in other languages, the crate script_c, and builds it:
# target/staticlib/libscript.a, for x86-64 Linux. No library is left if the proof fails.
set -eu
cd "$(dirname "$0")"
. ./need.sh
need rt
rm -f target/staticlib/libscript.a
(cd crates/script_c && rt lib)
mkdir -p target/staticlib
cp crates/script_c/out/libscript_c.a target/staticlib/libscript.a
