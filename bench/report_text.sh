#!/usr/bin/env bash
# report_text.sh [FOLDER]: times the reader and the writer of reports by the program probe: each report of its stored run is read, and written again, until 25 MB of
# its text are written. For each: its first two lines, MB, seconds, MB a second, peak memory.
#
# With a FOLDER: each NAME.txt in it of at most 65,000 bytes without a bar is read and written again. It prints how many texts there are, how many are no report's text, and
# how many of the others are not given back byte for byte. Where FOLDER has a list expected.txt as check_reports.sh reads it, those with a verdict
# `invalid text`, and no others, are to be no report's text.
set -eu
top="$(cd "$(dirname "${BASH_SOURCE[0]}")/.." && pwd)"
probe="$top/crates/probe/out/probe"
rows="$top/crates/probe/stdin"
[ -x "$probe" ] || (cd "$top/crates/probe" && rt run <stdin >/dev/null)
work="$(mktemp -d)"
trap 'rm -rf "$work"' EXIT

# is_refused FOLDER NAME: the list of the folder has a verdict `invalid text` on this text.
is_refused() {
    awk -F '\t' -v name="$2" '$1 == name && $2 ~ /invalid text/ { found = 1 } END { exit !found }' "$1/expected.txt"
}

# compare FOLDER: what comes back of the texts of a folder.
compare() {
    local texts=0 others=0 differ=0 left=0 file name line is_report
    for file in "$1"/*.txt; do
        name="$(basename "$file" .txt)"
        [ "$name" = expected ] && continue
        if grep -q '|' "$file" || [ "$(wc -c <"$file")" -gt 65000 ]; then
            left=$((left + 1))
            continue
        fi
        texts=$((texts + 1))
        tr '\n' '|' <"$file" >"$work/line"
        { printf 'report copy '; cat "$work/line"; echo; } | "$probe" | head -c -1 >"$work/again"
        is_report=1
        if grep -q '^invalid text [0-9]*$' "$work/again"; then
            is_report=0
            others=$((others + 1))
        elif ! cmp -s "$work/line" "$work/again"; then
            differ=$((differ + 1))
            echo "$name: not given back"
        fi
        [ -f "$1/expected.txt" ] || continue
        if is_refused "$1" "$name"; then [ "$is_report" -eq 0 ]; else [ "$is_report" -eq 1 ]; fi || {
            differ=$((differ + 1))
            echo "$name: not as expected"
        }
    done
    echo "texts $texts, no report's text $others, differ $differ, left out $left"
    [ "$differ" -eq 0 ]
}

# timed LINE: the report of a line, again and again, with the program's peak memory as the kernel last told it.
timed() {
    local size times start end process peak=0 now
    size=$((${#1} - 12))
    times=$((25000000 / size))
    start="$(date +%s.%N)"
    printf 'repeat %s %s\n' "$times" "$1" | "$probe" >/dev/null &
    process=$!
    while now="$(awk '/VmHWM/ { print $2 }' "/proc/$process/status" 2>/dev/null)" && [ -n "$now" ]; do
        peak="$now"
        sleep 0.05
    done
    wait "$process"
    end="$(date +%s.%N)"
    awk -v head="${1:12}" -v bytes=$((times * size)) -v a="$start" -v b="$end" -v peak="$peak" \
        'BEGIN { printf "%-40.40s %6.1f MB, seconds %6.2f, MB a second %6.1f, peak memory %s kB\n", head, bytes / 1e6, b - a, bytes / 1e6 / (b - a), peak }'
}

if [ $# -gt 0 ]; then
    compare "$1"
    exit
fi
grep '^report copy ' "$rows" | while IFS= read -r line; do timed "$line"; done
