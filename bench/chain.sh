#!/usr/bin/env bash
# chain.sh [PROBE]: times chains by lines of the program probe, in three variables over the rational numbers. The germ has all 965 monomials of degree 2 to 16, and each
# of ten moves puts for each variable this variable and all 80 monomials of degree 2 to 6, with coefficients 1 and -1. For each line: seconds of processor time and peak
# memory, with reading the line. First the moves are pushed at order 2, which is reading for the most part; then they are pushed at order 8, and that chain is grown to
# 16; last, for each order from 9 to 16, a chain without moves is grown to it and all moves are pushed there: the germ is carried from nothing. At 16 both carry the
# same jet, else the script fails. Needs GNU time at /usr/bin/time.
set -eu
top="$(cd "$(dirname "${BASH_SOURCE[0]}")/.." && pwd)"
probe="${1:-$top/crates/probe/out/probe}"
[ -x "$probe" ] || (cd "$top/crates/probe" && rt run <stdin >/dev/null)
work="$(mktemp -d)"
trap 'rm -rf "$work"' EXIT

# dense LOW HIGH PLACE: all monomials of degree LOW to HIGH, each behind a sign, from a pattern of signs that begins at PLACE.
dense() {
    awk -v low="$1" -v high="$2" -v place="$3" 'BEGIN {
        for (d = low; d <= high; d++) for (a = d; a >= 0; a--) for (b = d - a; b >= 0; b--) {
            c = d - a - b
            body = (a ? "*u1" (a > 1 ? "^" a : "") : "") (b ? "*u2" (b > 1 ? "^" b : "") : "") (c ? "*u3" (c > 1 ? "^" c : "") : "")
            text = text (place % 3 && place % 7 ? "+" : "-") substr(body, 2)
            place++
        }
        print text
    }'
}

# grows COUNT: so many steps to the next order.
grows() {
    for ((i = 0; i < $1; i++)); do printf ' grow'; done
}

# timed NAME FILE COUNT STEPS: the chain of these steps; its jet goes to the file.
timed() {
    printf 'chain carried Q 3 16 %s %s%s\n' "$germ" "$3" "$4" >"$work/line"
    /usr/bin/time -f '%U seconds, peak memory %M kB' -o "$work/measured" "$probe" <"$work/line" >"$2"
    printf '%-30s %s\n' "$1" "$(cat "$work/measured")"
}

germ="$(dense 2 16 1 | sed 's/^+//')"
moves=
for ((move = 0; move < 10; move++)); do
    moves="$moves push"
    for i in 1 2 3; do moves="$moves u$i$(dense 2 6 $((3 * move + i)))"; done
done
timed 'pushed at 2' "$work/jet" 10 "$moves"
timed 'pushed at 8' "$work/jet" 16 "$(grows 6)$moves"
timed 'pushed at 8, grown to 16' "$work/grown" 24 "$(grows 6)$moves$(grows 8)"
for ((order = 9; order <= 16; order++)); do timed "from nothing at $order" "$work/jet" $((order + 8)) "$(grows $((order - 2)))$moves"; done
cmp "$work/grown" "$work/jet"
