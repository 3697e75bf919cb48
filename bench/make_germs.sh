#!/usr/bin/env bash
# make_germs.sh COUNT SEED: COUNT germs of corank 0 and 1 in two to eight variables, each on a line of its own after a comment line `# NAME` with the name that
# it has by construction. A germ is a sum of squares, in corank 1 with a power y^(k + 1) in place of one of them, after an invertible linear change (the product
# of two triangular matrices with ones on the diagonal and entries -1, 0, 1 beside it) with some quadratic terms in each part.
set -eu
LC_ALL=C awk -v count="$1" -v seed="$2" '
function below(n) { return int(rand() * n) }
function signed(text, c) { return c == 0 ? "" : (c > 0 ? "+" : "-") (c * c == 1 ? "" : (c > 0 ? c : -c) "*") text }
# the part of the change for variable i: its row of the matrix, and up to two quadratic terms
function part(i,   j, r, c, text) {
    text = ""
    for (j = 1; j <= n; j++) text = text signed(name[j], matrix[i, j])
    for (r = below(3); r > 0; r--) { c = 1 + below(2); text = text signed(name[1 + below(n)] "*" name[1 + below(n)], below(2) ? c : -c) }
    sub(/^\+/, "", text)
    return "(" text ")"
}
function change(   i, j, k) {
    for (i = 1; i <= n; i++) for (j = 1; j <= n; j++) {
        lower[i, j] = i == j ? 1 : i > j && below(3) == 0 ? 1 - 2 * below(2) : 0
        upper[i, j] = i == j ? 1 : i < j && below(3) == 0 ? 1 - 2 * below(2) : 0
    }
    for (i = 1; i <= n; i++) for (j = 1; j <= n; j++) {
        matrix[i, j] = 0
        for (k = 1; k <= n; k++) matrix[i, j] += lower[i, k] * upper[k, j]
    }
}
BEGIN {
    srand(seed)
    split("x y z w a b c d", name, " ")
    for (line = 0; line < count; line++) {
        n = 2 + below(7)
        corank = below(4) > 0
        power = corank ? 3 + below(n < 5 ? 9 : 4) : 2
        change()
        declared = name[1]
        for (i = 2; i <= n; i++) declared = declared "," name[i]
        text = part(1) "^" power
        for (i = 2; i <= n; i++) { c = 1 + below(3); text = text (below(2) ? "+" : "-") (c > 1 ? c "*" : "") part(i) "^2" }
        print "# A" power - 1
        print "[" declared "] " text
    }
}'
