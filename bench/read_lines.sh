#!/usr/bin/env bash
# Times the line reader, by the program probe, on 16 MB of lines of about 60 bytes in up to three variables, at order 12: seconds, peak memory.
set -eu
top="$(cd "$(dirname "${BASH_SOURCE[0]}")/.." && pwd)"
probe="$top/crates/probe/out/probe"
[ -x "$probe" ] || (cd "$top/crates/probe" && rt run <stdin >/dev/null)
input="$(mktemp)"
trap 'rm -f "$input"' EXIT
awk 'BEGIN { for (i = 0; i < 280000; i++) printf "report read 12 %d*x^%d*y-%d/%d*(x+y)^%d*z^2+x^3-%d*y^2*z^%d+%d*z^7+x^5*y^2*z\n",
    1 + i % 97, 2 + i % 5, 1 + i % 31, 1 + i % 13, 2 + i % 3, 1 + i % 89, 1 + i % 4, i % 71 }' >"$input"
echo "bytes in $(wc -c <"$input"), lines $(wc -l <"$input")"
start="$(date +%s.%N)"
"$probe" <"$input" >/dev/null
end="$(date +%s.%N)"
awk -v a="$start" -v b="$end" 'BEGIN { printf "seconds %.2f\n", b - a }'
"$probe" <"$input" >/dev/null &
process=$!
peak=0
while now="$(awk '/VmHWM/ { print $2 }' "/proc/$process/status" 2>/dev/null)" && [ -n "$now" ]; do peak="$now"; done
wait "$process"
echo "peak memory $peak kB"
