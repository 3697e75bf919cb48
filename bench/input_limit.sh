#!/usr/bin/env bash
# Runs `germ classify` on a line and newlines up to the limit of 16,777,216 bytes, then on one byte more: the first ends with
# status 0, the second with status 6, and both write the answer to the line alone. Prints the seconds of each.
set -u
top="$(cd "$(dirname "${BASH_SOURCE[0]}")/.." && pwd)"
"$top/germ" classify </dev/null || exit 1
wanted="$(printf 'germ [y] 3*y\nanswer not-critical y\nend\n')"
failed=0
for bytes in 16777216 16777217; do
    start="$(date +%s.%N)"
    written="$({ printf '[y] 3*y\n'; yes '' | head -c $((bytes - 8)); } | "$top/crates/germ/out/germ" classify)"
    status=$?
    end="$(date +%s.%N)"
    awk -v n="$bytes" -v s="$status" -v a="$start" -v b="$end" 'BEGIN { printf "bytes %d, status %d, seconds %.2f\n", n, s, b - a }'
    [ "$written" = "$wanted" ] && [ "$status" -eq $((bytes > 16777216 ? 6 : 0)) ] || failed=1
done
exit $failed
