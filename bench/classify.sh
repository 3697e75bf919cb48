#!/usr/bin/env bash
# classify.sh FILE [PROGRAM]: has the program classify each line of a file by itself. A line may stand after a comment line `# NAME` with its name, as
# make_germs.sh makes them. Writes how many lines got that name, how many `range` (by phase) and how many other answers, with the first of these; the median,
# the 95th percentile and the longest processor time of a line, less that of starting the program on no line; and the peak memory of the longest. It is
# processor time, so that other work on the machine counts little; a line of less than 10 milliseconds is measured as 32 copies of it.
set -eu
top="$(cd "$(dirname "${BASH_SOURCE[0]}")/.." && pwd)"
program="${2:-$top/crates/germ/out/germ}"
work="$(mktemp -d)"
trap 'rm -rf "$work"' EXIT
TIMEFORMAT='%3U %3S'
# The microseconds of processor time that the program takes for a file, to a millisecond.
spent() {
    local user system
    read -r user system < <({ time "$program" classify <"$1" >"$work/report"; } 2>&1)
    echo $((1000 * (10#${user/./} + 10#${system/./})))
}

# The time of a start, the least of twenty.
base=1000000
for _ in {1..20}; do
    taken="$(spent /dev/null)"
    if ((taken < base)); then base="$taken"; fi
done

wanted=""
while IFS= read -r line; do
    case "$line" in
        '# '*) wanted="${line#\# }"; continue ;;
        '' | '#'*) continue ;;
    esac
    printf '%s\n' "$line" >"$work/line"
    taken=$(($(spent "$work/line") - base))
    answer="$(sed -n '2s/^answer //p' "$work/report")"
    if ((taken < 10000)); then
        for _ in {1..32}; do cat "$work/line"; done >"$work/copies"
        taken=$((($(spent "$work/copies") - base) / 32))
    fi
    printf '%s\t%s\t%s\t%s\n' "$((taken > 0 ? taken : 0))" "$wanted" "$answer" "$line"
    wanted=""
done <"$1" >"$work/answers"

sort -n "$work/answers" | awk -F '\t' '
    { time[NR] = $1; last = $4 }
    $3 == "named " $2 { named++; next }
    $3 ~ /^range/ { range++; phase[$3]++; next }
    { other++; if (first == "") first = $2 " expected, " $3 ": " $4 }
    END {
        printf "lines %d, named as expected %d, range %d, other answers %d\n", NR, named, range, other
        for (p in phase) printf "%s %d\n", p, phase[p]
        if (other) print "the first: " first
        printf "milliseconds a line: median %.2f, 95th percentile %.2f, longest %.1f\n", time[int((NR + 1) / 2)] / 1000, time[int(NR * 0.95)] / 1000, time[NR] / 1000
        print last >"'"$work/longest"'"
    }'
"$program" classify <"$work/longest" >/dev/null &
process=$!
peak=0
while kilobytes="$(awk '/VmHWM/ { print $2 }' "/proc/$process/status" 2>/dev/null)" && [ -n "$kilobytes" ]; do peak="$kilobytes"; done
wait "$process"
echo "peak memory of the longest: $peak kB"
