#!/usr/bin/env bash
# make_lines.sh N SEED: N random lines for readers of the line grammar: sums of terms in up to nine names, some declared, with powers, quotients
# and groups; about two in five are changed at one or two places, and most of these are in the grammar no more.
set -eu
LC_ALL=C awk -v count="$1" -v seed="$2" '
function below(n) { return int(rand() * n) }
function blank() { return below(12) == 0 ? substr(" \t", 1 + below(2), 1) : "" }
function number(   r, s) {
    r = below(20)
    if (r == 0) return "0"
    if (r == 1) return "00" below(100)
    if (r == 2) { s = 1 + below(9); for (r = below(22); r > 0; r--) s = s below(10); return s }
    return 1 + below(30)
}
function exponent(   r) { r = below(40); return r == 0 ? 0 : r == 1 ? 1 + below(40) : r == 2 ? "999999999999999999" : 1 + below(5) }
function atom(deep,   r) {
    r = below(10)
    if (r < 6) return names[1 + below(known)]
    if (r < 8 || deep > 3) return number()
    return "(" blank() expression(deep + 1) blank() ")"
}
function factor(deep,   s) { s = atom(deep); return below(3) == 0 ? s blank() "^" blank() exponent() : s }
function term(deep,   s, r) {
    s = factor(deep)
    for (r = below(4); r > 0; r--)
        s = below(6) == 0 ? s blank() "/" blank() number() : s blank() "*" blank() factor(deep)
    return s
}
function expression(deep,   s, r) {
    s = below(6) == 0 ? substr("+-", 1 + below(2), 1) blank() term(deep) : term(deep)
    for (r = below(deep == 0 ? 5 : 3); r > 0; r--) s = s blank() substr("+-", 1 + below(2), 1) blank() term(deep)
    return s
}
function declared(   s, i) { s = "[" blank() names[1]; for (i = 2; i <= known; i++) s = s blank() "," blank() names[i]; return s blank() "]" blank() }
function changed(s,   i, c, r) {
    i = 1 + below(length(s)); c = substr("xyzab019+-*/^(),[] .#", 1 + below(21), 1); r = below(4)
    if (r == 0) return substr(s, 1, i - 1) substr(s, i + 1)
    if (r == 1) return substr(s, 1, i - 1) c substr(s, i)
    if (r == 2) return substr(s, 1, i - 1) c substr(s, i + 1)
    return substr(s, 1, i)
}
BEGIN {
    srand(seed)
    split("x y z x1 y12 a b w123 q", all, " ")
    for (n = 0; n < count; n++) {
        known = below(10) == 0 ? 1 + below(9) : 1 + below(4)
        start = below(9)
        for (i = 1; i <= known; i++) names[i] = all[1 + (start + i) % 9]
        line = (below(3) == 0 ? declared() : "") expression(0)
        if (below(5) < 2) line = changed(line)
        if (below(10) == 0) line = changed(line)
        print line
    }
}'
