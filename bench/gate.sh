#!/usr/bin/env bash
# gate.sh [WORD..]: runs `rt ci` (with these words) and shows its log as it comes, the seconds since its start before each line. Then, for each crate, the
# seconds of processor time of its proof, its tests and its must-fail edits, with their sums, and the processor minutes of the whole run.
#
# The seconds of a crate are read off the processes of the run every two seconds, so each of its processes may lack its last two; the sum at the end is
# the one that the kernel keeps, with all that the run started. Only a run from nothing measures the gate: `gate.sh --anew`, or one on a machine that
# keeps nothing of an earlier run. docs/gate.md has the last table and what it is held to. Ends with the status of `rt ci`.
set -u
top="$(cd "$(dirname "${BASH_SOURCE[0]}")/.." && pwd)"
cd "$top" || exit 1
work="$(mktemp -d)"
trap 'rm -rf "$work"' EXIT
tick="$(getconf CLK_TCK)"

# below PID: all processes that this one started, and those that they started.
below() {
    local child
    for child in $(cat /proc/"$1"/task/*/children 2>/dev/null); do
        echo "$child"
        below "$child"
    done
}

# sample PID: one line for each process below that works on a crate: its number, what it does for which crate, and its ticks until now.
sample() {
    local process words crate kind
    for process in $(below "$1"); do
        words="$(tr '\0' ' ' 2>/dev/null <"/proc/$process/cmdline")"
        [[ "$words" == *--crate-name* ]] || continue
        crate="${words#*--crate-name }"
        kind=proof
        [[ "$(readlink "/proc/$process/cwd")" == "$top"/crates/* ]] || kind=edits
        [[ "$words" == *' --test '* ]] && kind=tests
        awk -v p="$process" -v k="$kind" -v c="${crate%% *}" '{ sub(/.*\) /, ""); print p, k, c, $12 + $13 }' "/proc/$process/stat" 2>/dev/null
    done
}

# The run, the lines of its log with their times, and the samples.
: >"$work/log"
rt ci "$@" >"$work/log" 2>&1 &
run=$!
tail -n +1 -f --pid "$run" "$work/log" | while IFS= read -r line; do printf '%6d  %s\n' "$SECONDS" "$line"; done &
shown=$!
while kill -0 "$run" 2>/dev/null; do
    sample "$run" >>"$work/samples"
    sleep 2
done
wait "$run"
status=$?
wait "$shown"

awk -v tick="$tick" '{ ticks[$1 " " $2 " " $3] = $4 }
    END {
        for (key in ticks) { split(key, part, " "); seconds[part[3] " " part[2]] += ticks[key] / tick; crates[part[3]]; sums[part[2]] += ticks[key] / tick }
        printf "%-18s %8s %8s %8s\n", "crate", "proof", "tests", "edits"
        sorted = "sort -k2,2nr"
        for (crate in crates) printf "%-18s %8.0f %8.0f %8.0f\n", crate, seconds[crate " proof"], seconds[crate " tests"], seconds[crate " edits"] | sorted
        close(sorted)
        printf "%-18s %8.0f %8.0f %8.0f\n", "sum", sums["proof"], sums["tests"], sums["edits"]
    }' "$work/samples"
# Bash's own count of what the ended children took: user and system time, as 1m2.345s. A pipe would count those of its own shell.
times >"$work/times"
awk 'NR == 2 { for (i = 1; i <= 2; i++) { split($i, part, /[ms]/); total += 60 * part[1] + part[2] } printf "processor minutes of the run: %.1f, in %.1f minutes\n", total / 60, '"$SECONDS"' / 60 }' "$work/times"
exit "$status"
