#!/bin/sh
# Builds the program and the oracle, races the two on whole inputs through pipes, and says how much stack the
# program needs; prints a table in Markdown:
#     program.sh [RUNS]
# With PROGRAM set, that program races in place of ours.
set -eu
runs=${1:-5}
case $#$runs in
    [01][1-9] | [01][1-9][0-9] | [01][1-9][0-9][0-9]) ;;
    *)
        echo 'program.sh: it takes how many runs there are of each, 1 to 999: program.sh [RUNS]' >&2
        exit 2
        ;;
esac
here=$(cd "$(dirname "$0")" && pwd)
. "$here/../need.sh"
need cargo python3
[ -n "${PROGRAM:-}" ] || need rt
cargo build --release --offline --quiet --manifest-path "$here/../oracle/Cargo.toml"
if [ -z "${PROGRAM:-}" ]; then
    sh "$here/../build.sh" >&2
    PROGRAM=$here/../target/bin/pass_planner
fi
if ! [ -x "$PROGRAM" ]; then
    echo "program.sh: the program '$PROGRAM' cannot be executed" >&2
    exit 2
fi
exec python3 "$here/race.py" "$PROGRAM" "$runs"
