#!/usr/bin/env bash
# check.sh [FILE]: has Singular (Debian's package `singular`) verify reports of `germ classify` by its own arithmetic. For each report it writes one line: `valid`,
# `invalid ITEM` with the first item that fails, or `unchecked` where the report has no change of coordinates. It ends with 1 where some line begins with
# `invalid`, with 2 where Singular does not understand a report, which it then shows, and with 77 where it is not installed.
set -eu
command -v Singular >/dev/null || { echo "check.sh: Singular is not installed" >&2; exit 77; }
here="$(cd "$(dirname "${BASH_SOURCE[0]}")" && pwd)"
work="$(mktemp -d)"
trap 'rm -rf "$work"' EXIT
{
    cat "$here/check.sing"
    awk -f "$here/check.awk" "${1:-/dev/stdin}"
    echo 'quit;'
} >"$work/script"
Singular -q "$work/script" </dev/null >"$work/verdicts"
cat "$work/verdicts"
if grep -q '^ *?' "$work/verdicts"; then exit 2; fi
if grep -q '^invalid' "$work/verdicts"; then exit 1; fi
