#!/usr/bin/env bash
# compare_reports.sh LINES OTHER..: has the program classify a file of lines up to order 12, gives the same file to another classifier (a command with its words), and counts
# where their reports differ before the rows of Mather's test or the functional: there several answers can be right. Reports that the program answers `range` or `unbuilt` are counted apart.
# PROGRAM is the program, crates/germ/out/germ where it is not set.
set -eu
top="$(cd "$(dirname "${BASH_SOURCE[0]}")/.." && pwd)"
lines="$1"
shift
program="${PROGRAM:-$top/crates/germ/out/germ}"
ours="$(mktemp)"
theirs="$(mktemp)"
trap 'rm -f "$ours" "$theirs"' EXIT
# The front of each report, on one line.
fronts() { awk '/^(mather|functional) / { rest = 1 } $0 == "end" { print front; front = ""; rest = 0; next } !rest { front = front $0 "; " }'; }
"$program" classify <"$lines" | fronts >"$ours"
"$@" <"$lines" | fronts >"$theirs"
paste -d '\n' "$ours" "$theirs" | awk 'NR % 2 == 1 { ours = $0; next }
    ours == $0 { same++; next }
    ours ~ /; answer range / { range++; next }
    ours ~ /; answer unbuilt; $/ { unbuilt++; next }
    { differ++; print "report " NR / 2 ": " ours " | " $0 }
    END { printf "reports %d, same %d, range %d, unbuilt %d, differ %d\n", NR / 2, same, range, unbuilt, differ; exit differ > 0 }'
