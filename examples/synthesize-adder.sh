#!/bin/sh
# Finds two lookup tables of three inputs, one for the sum and one for the carry, of which a chain makes an adder: a circuit that
# compares the chain with an adder becomes a formula, Celdrinn simplifies it, a SAT solver decides what is left (where something
# is), and the tables are read off the rebuilt circuits, which are checked.
# Usage: examples/synthesize-adder.sh [BITS]
set -u
here=$(cd "$(dirname "$0")" && pwd)
. "$here/common.sh"
bits=${1:-4}
find_abc

# The circuit. Its first 16 inputs are the entries of the two tables; its output says whether the chain and the adder are one
# function. Entry i of a table is for the inputs a, b, k with a + 2 b + 4 k = i, where k is the carry that comes in.
awk -v n="$bits" '
    function names(prefix, count,    text, i) { for (i = 0; i < count; i++) text = text " " prefix i; return text }
    function table(t, i, out,    entry, row, j) {
        print ".names" names(t, 8) " a" i " b" i " k" i " " out
        for (entry = 0; entry < 8; entry++) {
            row = ""
            for (j = 0; j < 8; j++) row = row (j == entry ? "1" : "-")
            print row entry % 2 int(entry / 2) % 2 int(entry / 4) " 1"
        }
    }
    BEGIN {
        print ".model adder"
        print ".inputs" names("s", 8) names("c", 8) names("a", n) names("b", n)
        print ".outputs same"
        print ".names k0"; print ".names q0"
        for (i = 0; i < n; i++) {
            table("s", i, "u" i); table("c", i, "k" i + 1)
            print ".names a" i " b" i " q" i " v" i "\n100 1\n010 1\n001 1\n111 1"
            print ".names a" i " b" i " q" i " q" i + 1 "\n11- 1\n1-1 1\n-11 1"
            print ".names u" i " v" i " e" i "\n11 1\n00 1"
            ones = ones "1"
        }
        print ".names" names("e", n) " same\n" ones " 1"
        print ".end"
    }' >"$work/adder.blif"
in=$work/in.qdimacs
"$here/circuit-to-qdimacs.sh" "$work/adder.blif" 16 >"$in" || exit 1
echo "made: $(grep '^p' "$in")"

# With these bounds all universals are expanded, so no universal is left, and often no clause.
line=$("$celdrinn" simplify "$in" "$work/out" "$work/log" --grow=200 --expand=100)
status=$?
echo "simplify: $line"
case $status in
    0 | 10) ;;
    20) echo "there are no such tables" && exit 20 ;;
    *) exit 1 ;;
esac
if grep -q '^a' "$work/out"; then
    echo "universal variables are left: larger bounds are wanted"
    exit 1
fi
echo 's SATISFIABLE' >"$work/model"
if [ "$status" -eq 0 ]; then
    grep -v '^e' "$work/out" >"$work/cnf"
    solve_sat "$work/cnf" "$work/model"
    [ $? -eq 10 ] || { echo "there are no such tables (by $by)" && exit 20; }
fi
constants "$work/model" "$work/out" >"$work/skolem"
line=$("$celdrinn" rebuild "$in" "$work/out" "$work/log" "$work/skolem" "$work/cert") || { echo "rebuild: $line" && exit 1; }
echo "rebuild: $line"

# The formula's first 16 variables are the entries, and their circuits are constants.
outputs_of "$work/cert" >"$work/values"
awk 'FILENAME == ARGV[1] { value[$1] = $2; next }
    $1 == "e" {
        for (i = 2; i < NF; i++) row[i > 9] = row[i > 9] value[$i]
        print "sum:   " row[0]; print "carry: " row[1]; exit
    }' "$work/values" "$in"
echo "validate: $("$celdrinn" validate "$in" "$work/cert")"
echo "SAT solver: $("$here/validate-with-sat.sh" "$in" "$work/cert")"
