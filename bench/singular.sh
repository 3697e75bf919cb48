#!/usr/bin/env bash
# singular.sh FILE [PROGRAM]: on the same file of lines, as make_germs.sh makes them, the program's `classify` beside classify.lib and arnoldclassify.lib of the computer algebra
# system Singular (Debian's package `singular-ui`), each line by itself. For each of the three: how many lines got the name that stands before them, how many another one, with the first
# of these, how many none, and how many were not answered within 20 seconds; the median, the 95th percentile and the longest time of a line, less that of a start with no line.
# It is no part of the gate, and says so where there is no Singular.
set -eu
top="$(cd "$(dirname "${BASH_SOURCE[0]}")/.." && pwd)"
lines="$1"
program="${2:-$top/crates/germ/out/germ}"
command -v Singular >/dev/null || { echo "singular.sh: there is no Singular here" >&2; exit 0; }
work="$(mktemp -d)"
trap 'rm -rf "$work"' EXIT
now() { echo "${EPOCHREALTIME/./}"; }

# ask READER: has it classify $work/line; its answer goes to $work/answer.
ask() {
    case "$1" in
        germ) timeout 20 "$program" classify <"$work/line" >"$work/answer" 2>/dev/null ;;
        *) timeout 20 Singular -q "$work/$1.sing" </dev/null >"$work/answer" 2>/dev/null ;;
    esac
}

# name READER: the name in its answer, in the program's spelling, or `none`.
name() {
    case "$1" in
        germ) sed -n 's/^answer named //p' "$work/answer" ;;
        classify) sed -n 's/^is R-equivalent to //p' "$work/answer" | sed 's/\.$//' ;;
        arnoldclassify) sed -n 's/^Class=//p' "$work/answer" ;;
    esac | head -n 1 | sed -e 's/ *=.*//' -e 's/^T\[\(.*\)\]$/T(\1)/' -e 's/\[\([0-9]*\)\]$/\1/' | grep . || echo none
}

# script READER LINE: what Singular is to do for a line; with no line, only its start.
script() {
    echo "LIB \"$1.lib\";"
    [ -n "$2" ] || return 0
    local names="x,y,z,w" text="$2"
    if [[ "$text" == '['* ]]; then
        names="${text%%]*}"
        names="${names#[}"
        text="${text#*]}"
    fi
    echo "ring r = 0,($names),ds; short = 0; poly f = $text;"
    if [ "$1" = classify ]; then echo "def g = classify(f);"; else echo "arnoldClassify(f);"; fi
}

for reader in germ classify arnoldclassify; do
    : >"$work/line"
    script "$reader" "" >"$work/$reader.sing"
    base=20000000
    for _ in {1..5}; do
        start="$(now)"
        ask "$reader" || true
        taken=$(($(now) - start))
        if ((taken < base)); then base=$taken; fi
    done
    wanted=""
    : >"$work/found"
    while IFS= read -r line; do
        case "$line" in
            '# '*) wanted="${line#\# }"; continue ;;
            '' | '#'*) continue ;;
        esac
        printf '%s\n' "$line" >"$work/line"
        script "$reader" "$line" >"$work/$reader.sing"
        start="$(now)"
        status=0
        ask "$reader" || status=$?
        taken=$(($(now) - start - base))
        if ((status == 124)); then found=hangs; else found="$(name "$reader")"; fi
        printf '%s\t%s\t%d\t%s\n' "$wanted" "$found" "$taken" "$line" >>"$work/found"
    done <"$lines"
    sort -t "$(printf '\t')" -k 3,3n "$work/found" | awk -F '\t' -v reader="$reader" '
        { time[NR] = $3 < 0 ? 0 : $3 }
        $2 == "hangs" { hangs++; next }
        $2 == "none" { none++; next }
        $1 != $2 { other++; if (first == "") first = $2 " for " $1 ": " $4; next }
        { same++ }
        END {
            printf "%s: %d lines, %d with their name, %d with another, %d without, %d not within 20 s; median %.4f s, 95th percentile %.4f s, longest %.4f s\n",
                reader, NR, same, other, none, hangs, time[int((NR + 1) / 2)] / 1e6, time[int((NR * 95 + 99) / 100)] / 1e6, time[NR] / 1e6
            if (first != "") print "  first other: " first
        }'
done
