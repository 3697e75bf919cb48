#!/usr/bin/env bash
# Times `germ classify` on 1,000,000 lines `[x] x^3`, and on 100,000 lines of other powers and coefficients: seconds, peak memory,
# bytes written.
set -eu
top="$(cd "$(dirname "${BASH_SOURCE[0]}")/.." && pwd)"
"$top/germ" classify </dev/null
input="$(mktemp)"
trap 'rm -f "$input"' EXIT
run() {
    start="$(date +%s.%N)"
    written="$("$top/crates/germ/out/germ" classify <"$input" | wc -c)"
    end="$(date +%s.%N)"
    echo "lines $(wc -l <"$input"), bytes in $(wc -c <"$input"), bytes written $written"
    awk -v a="$start" -v b="$end" -v w="$written" 'BEGIN { printf "seconds %.2f, bytes written a second %.0f\n", b - a, w / (b - a) }'
    "$top/crates/germ/out/germ" classify <"$input" >/dev/null &
    process=$!
    peak=0
    while now="$(awk '/VmHWM/ { print $2 }' "/proc/$process/status" 2>/dev/null)" && [ -n "$now" ]; do peak="$now"; done
    wait "$process"
    echo "peak memory $peak kB"
}
awk 'BEGIN { for (i = 0; i < 1000000; i++) print "[x] x^3" }' >"$input"
run
awk 'BEGIN { for (i = 0; i < 100000; i++) printf "[x] %d*x^%d-x^40\n", 1 + i % 999, 2 + i % 11 }' >"$input"
run
