# shellcheck shell=sh
# need TOOL..: ends a script with one sentence where a command is missing. The scripts read this in.
need() {
    for tool; do
        tool=${tool%% *}
        command -v "$tool" >/dev/null 2>&1 && continue
        echo "$(basename "$0"): '$tool' is missing; README.md, \"What it takes\", says where it comes from" >&2
        exit 3
    done
}
