# Makes a call of the procedures of check.sing from each report: the line's variables become v(1) to v(n), and all lines of the report polynomials of Singular.

# the names of the line's variables in an expression, each replaced by its number
function renamed(text,   out, name) {
    out = ""
    while (match(text, /[A-Za-z][0-9]*/)) {
        name = substr(text, RSTART, RLENGTH)
        out = out substr(text, 1, RSTART - 1) "v(" number[name] ")"
        text = substr(text, RSTART + RLENGTH)
    }
    return bracketed(out text)
}
# each exponent in brackets: Singular takes the 5/2 of x^5/2 for one number
function bracketed(text,   out) {
    gsub(/\^[ \t]*/, "^", text)
    out = ""
    while (match(text, /\^[0-9]+/)) {
        out = out substr(text, 1, RSTART) "(" substr(text, RSTART + 1, RLENGTH - 1) ")"
        text = substr(text, RSTART + RLENGTH)
    }
    return out text
}
# polynomials parted by a sign, as a list of Singular
function listed(text, sign,   parts, k, i, out) {
    if (text == "") return "list()"
    k = split(text, parts, sign)
    out = ""
    for (i = 1; i <= k; i++) { gsub(/^ +| +$/, "", parts[i]); out = out (i > 1 ? "," : "") "poly(" parts[i] ")" }
    return "list(" out ")"
}
function begin() { germ = ""; kind = ""; variables = 0; parts = ""; rows = ""; calls = ""; delete number; table = 0; basis = 0; mode = "" }
BEGIN { begin() }
/^(germ|long) / && mode == "" { begin(); germ = $1 == "germ" ? substr($0, 6) : ""; mode = "head"; next }
mode == "head" && $1 == "answer" { kind = $2; next }
$0 == "end" {
    # Singular has no exponents of more than nine digits
    if (variables == 0 || germ ~ /\^[ \t]*[0-9][0-9][0-9][0-9][0-9][0-9][0-9][0-9][0-9][0-9]/) print "print(\"unchecked\");"
    else {
        expression = germ
        sub(/^[ \t]*\[[^]]*\]/, "", expression)
        printf "report(%d, %d, %d, \"%s\", \"%s\");\n", variables, corank, order, first, second
        printf "germ(%s);\n", renamed(expression)
        print "change(list(" parts "));"
        print "inverse(list(" rows "));"
        print "carry(poly(" jet "));"
        print calls "verdict();"
    }
    mode = ""
    variables = 0
    next
}
$1 == "order" { order = $2; next }
$1 == "algebra" { first = $2 == "Q" ? "" : $2; second = $3 == ";" ? $4 : ""; next }
$1 == "corank" { corank = $2; next }
$0 == "change" { mode = "change"; next }
$0 == "inverse" { mode = "inverse"; next }
mode == "change" { variables++; number[$1] = variables; parts = parts (variables > 1 ? "," : "") "poly(" $3 ")"; next }
$1 == "form" || $1 == "jet" { jet = $2; mode = "head"; calls = kind == "outside" ? "" : "split();\n"; next }
mode == "inverse" { rows = rows (rows == "" ? "" : ",") listed($0, " "); next }
$1 == "units" { mode = "units"; next }
$1 == "modulus" { mode = "head"; next }
mode == "units" { calls = calls "unit(poly(" $1 "),poly(" $2 "));\n"; next }
$1 == "milnor" { milnor = $2; next }
$1 == "mather" { mode = "mather"; calls = calls "mather(" $2 ");\n"; next }
$1 == "basis" { mode = "table"; sub(/^basis ?/, ""); calls = calls "basis(bigint(" milnor ")," listed($0, " ") ");\n"; next }
$1 == "table" { calls = calls "table(" $2 ");\n"; next }
$1 == "functional" { mode = "functional"; calls = calls "functional(poly(" $2 "));\n"; next }
mode == "mather" { split($0, side, " = "); calls = calls "mather_row(poly(" side[1] ")," listed(side[2], ";") ");\n"; next }
mode == "table" { split($0, side, " = "); split(side[2], values, " :"); calls = calls "table_row(poly(" side[1] ")," listed(values[1], " ") "," listed(values[2], ";") ");\n"; next }
mode == "functional" { calls = calls "value(poly(" $1 "),poly(" $2 "));\n"; next }
