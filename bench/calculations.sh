#!/usr/bin/env bash
# Times calculations by lines of the program probe: a million products and inverses of fractions and in fields of degree 1, 2, 3 and 6, a million searches for a
# root of a cubic, the check of a triangle of lines over a tower, products of dense jets, substitutions in dense jets, and Mather's test and the quotient of germs,
# dense ones among them. Reading the line's numbers and writing the answer is timed with each calculation. For each: the beginning of its answer, seconds,
# peak memory. With words: the line that they make.
set -eu
top="$(cd "$(dirname "${BASH_SOURCE[0]}")/.." && pwd)"
probe="$top/crates/probe/out/probe"
[ -x "$probe" ] || (cd "$top/crates/probe" && rt run <stdin >/dev/null)
answer="$(mktemp)"
trap 'rm -f "$answer"' EXIT

# timed WORD..: answers the line of these words, with the program's peak memory as the kernel last told it.
timed() {
    local start end process peak=0 now
    start="$(date +%s.%N)"
    printf '%s\n' "$*" | "$probe" >"$answer" &
    process=$!
    while now="$(awk '/VmHWM/ { print $2 }' "/proc/$process/status" 2>/dev/null)" && [ -n "$now" ]; do peak="$now"; done
    wait "$process"
    end="$(date +%s.%N)"
    awk -v words="$(printf '%.60s' "$*")" -v text="$(head -c 24 "$answer")" -v a="$start" -v b="$end" -v peak="$peak" \
        'BEGIN { printf "%-60.60s %-24.24s seconds %6.2f, peak memory %s kB\n", words, text, b - a, peak }'
}

# dense VARIABLES LOW HIGH MOST LEFT [NAMES]: the first so many monomials in the variables u1 to un, or in these names, of degree LOW to HIGH, with small
# coefficients, of which the first LEFT are left out.
dense() {
    awk -v n="$1" -v low="$2" -v high="$3" -v most="$4" -v place="$5" -v names="${6:-}" '
    function divisor(a, b) { return b ? divisor(b, a % b) : a }
    function coefficient(i,   p, q, d) { p = i % 5 + 1; q = i % 4 + 1; d = divisor(p, q); return (i % 3 ? "+" : "-") (p / d) (q / d > 1 ? "/" q / d : "") }
    function term(exponents,   c, body, sign) {
        body = ""
        for (v = 1; v <= n; v++) if (exponents[v]) body = body "*" name[v] (exponents[v] > 1 ? "^" exponents[v] : "")
        c = coefficient(place++)
        if (body != "" && substr(c, 2) == "1") { sign = substr(c, 1, 1); c = sign; body = substr(body, 2) }
        text = text c body
        count++
    }
    function all(v, left,   e) {
        if (count >= most) return
        if (v == n) { exponents[v] = left; term(exponents); return }
        for (e = left; e >= 0; e--) { exponents[v] = e; all(v + 1, left - e) }
    }
    BEGIN {
        if (!split(names, name, ",")) for (v = 1; v <= n; v++) name[v] = "u" v
        for (degree = low; degree <= high; degree++) all(1, degree)
        sub(/^\+/, "", text)
        print text
    }'
}

if [ $# -gt 0 ]; then
    timed "$@"
    exit
fi
timed repeat 1000000 number product -7/3 4/5
timed repeat 1000000 number inverse -7/3
# in_algebra ALGEBRA A B: products of A and B, and inverses of A.
in_algebra() {
    timed repeat 1000000 element product "$1" "$2" "$3"
    timed repeat 1000000 element inverse "$1" 0 0 "$2"
}
in_algebra Q -7/3 4/5
in_algebra 't^2-2' '-7/3+2*t' '4/5-t'
in_algebra 't^3-2' '-7/3+2*t-5/2*t^2' '4/5-t+8/3*t^2'
in_algebra 't^3+2 ; s^2+108' '-7/3+2*t-5/2*t^2+s-1/2*s*t+2/3*s*t^2' '4/5-t+8/3*t^2-s+3/2*s*t-s*t^2'
timed repeat 1000000 number root-cubic 79225091884405108389834752 85968058271978839505460 -85968058271978839424
timed repeat 1000 "$(grep -m 1 '^report check germ x^3+2\*y^3+4\*z^3-6\*x\*y\*z+x^4|answer named' "$top/crates/probe/stdin")"
f="$(dense 3 0 16 969 0)"
timed jet mul Q 3 16 "$f" "$f"
f="$(dense 8 0 12 500 0)"
timed jet mul Q 8 12 "$f" "$f"
timed jet subst Q 3 12 3 "$(dense 3 2 12 451 0)" "$(dense 3 1 2 99 0)" "$(dense 3 1 2 99 1)" "$(dense 3 1 2 99 2)"
for low in 2 6; do
    parts=
    for i in 0 1 2 3 4 5 6 7; do parts="$parts $(dense 8 1 1 8 $i)"; done
    timed "jet subst Q 8 12 8 $(dense 8 $low 12 300 0)$parts"
done
local_algebra() {
    timed germ mather "$@"
    timed germ quotient "$@"
}
for order in 6 8 10; do
    local_algebra "$order" "[x,y,z] x^3+y^3+z^3+$(dense 3 4 "$order" 1000 1 x,y,z)"
done
local_algebra 5 'x^3+y^5'
local_algebra 8 'x^3+3*x^2*y^2+y^7'
local_algebra 6 'x*y*z+x^4+y^5+z^6'
local_algebra 4 'x^3+2*y^3+4*z^3-6*x*y*z+x^4'
local_algebra 3 'x^3+2*x^2*y-x^2*z+3*x*y^2+x*y*z-2*x*z^2+y^3-y^2*z+2*y*z^2+3*z^3'
local_algebra 12 '[x,y,z] 0'
local_algebra 16 '[x,y,z] 0'
local_algebra 12 'x^3+y^3+z^3+2*x*y*z+x^4+2*y^4+3*z^4+x^2*y^2'
