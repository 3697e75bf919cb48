#!/usr/bin/env bash
# Times the graded kills of Q12 and S12 by lines of the program probe: of the jet of order 16 with all 969 monomials in three variables, each grade from that above the
# form's on, and for comparison a grade that no monomial has, where the line is read and its answer is written. For each: how many kills, and milliseconds for one.
set -eu
top="$(cd "$(dirname "${BASH_SOURCE[0]}")/.." && pwd)"
probe="${1:-$top/crates/probe/out/probe}"
[ -x "$probe" ] || (cd "$top/crates/probe" && rt run <stdin >/dev/null)
lines="$(mktemp)"
trap 'rm -f "$lines"' EXIT

# dense: all monomials of degree 0 to 16 in u1, u2 and u3, with small coefficients.
dense() {
    awk 'BEGIN {
        for (d = 0; d <= 16; d++) for (a = d; a >= 0; a--) for (b = d - a; b >= 0; b--) {
            c = d - a - b
            body = (a ? "*u1" (a > 1 ? "^" a : "") : "") (b ? "*u2" (b > 1 ? "^" b : "") : "") (c ? "*u3" (c > 1 ? "^" c : "") : "")
            p = i % 5 + 2
            text = text (i % 3 ? "+" : "-") p body
            i++
        }
        sub(/^\+/, "", text)
        print text
    }'
}

# timed PART FIRST LAST REPEATS: the kills of the grades from FIRST to LAST, so often each.
timed() {
    local start end grade
    for ((grade = $2; grade <= $3; grade++)); do printf 'repeat %s kill of Q 3 16 %s %s %s\n' "$4" "$1" "$grade" "$f"; done >"$lines"
    start="$(date +%s.%N)"
    "$probe" <"$lines" >/dev/null
    end="$(date +%s.%N)"
    awk -v part="$1" -v first="$2" -v last="$3" -v repeats="$4" -v a="$start" -v b="$end" \
        'BEGIN { count = (last - first + 1) * repeats; printf "%s, grades %s to %s: %d kills, %.2f milliseconds each\n", part, first, last, count, (b - a) * 1000 / count }'
}

f="$(dense)"
timed Q12 16 96 10
timed Q12 97 97 100
timed S12 14 80 10
timed S12 81 81 100
