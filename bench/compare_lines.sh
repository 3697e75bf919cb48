#!/usr/bin/env bash
# compare_lines.sh LINES OTHER..: has the program probe read a file of lines at the order limit 12, gives the same file to another reader (a command with its words),
# and counts where they differ. Lines that probe answers `range` are counted apart.
set -eu
top="$(cd "$(dirname "${BASH_SOURCE[0]}")/.." && pwd)"
lines="$1"
shift
probe="$top/crates/probe/out/probe"
[ -x "$probe" ] || (cd "$top/crates/probe" && rt run <stdin >/dev/null)
ours="$(mktemp)"
theirs="$(mktemp)"
trap 'rm -f "$ours" "$theirs"' EXIT
sed 's/^/report read 12 /' "$lines" | "$probe" >"$ours"
"$@" <"$lines" >"$theirs"
paste -d '\n' "$ours" "$theirs" | awk 'NR % 2 == 1 { ours = $0; next }
    ours == $0 { same++; next }
    ours == "range" { range++; next }
    { differ++; print "line " NR / 2 ": " ours " | " $0 }
    END { printf "lines %d, same %d, range %d, differ %d\n", NR / 2, same, range, differ; exit differ > 0 }'
