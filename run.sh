#!/bin/sh
# Answers a file of commands, or standard input, by the program, which is proved and built first unless
# it is already:
#     ./run.sh examples/listing.txt
#     ./run.sh < examples/listing.txt
set -eu
if [ $# -gt 1 ]; then
    echo 'run.sh: it takes one file at most: run.sh [FILE]' >&2
    exit 3
elif [ $# = 1 ]; then
    if [ -d "$1" ] || ! [ -r "$1" ]; then
        echo "run.sh: the file '$1' cannot be read" >&2
        exit 3
    fi
    exec <"$1"
fi
cd "$(dirname "$0")"
. ./need.sh
need rt
program=target/bin/pass_planner
if ! [ -x "$program" ] || [ -n "$(find crates crates.txt -name out -prune -o -type f -newer "$program" -print)" ]; then
    echo 'run.sh: proving and building the program, which can take some minutes' >&2
fi
if ! said=$(./build.sh </dev/null 2>&1); then
    printf '%s\n' "$said" >&2
    exit 3
fi
exec "$program"
