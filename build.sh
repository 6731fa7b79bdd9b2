#!/bin/sh
# Proves the program and builds it: target/bin/pass_planner, for x86-64 Linux. No program is left if the
# proof fails.
set -eu
cd "$(dirname "$0")"
. ./need.sh
need rt
rm -f target/bin/pass_planner
(cd crates/pass_planner && rt run </dev/null)
mkdir -p target/bin
cp crates/pass_planner/out/pass_planner target/bin/pass_planner
