#!/bin/sh
# Writes a circuit file in binary AIGER, which ABC and other tools read: circuits as `rebuild`, `refute` and `solve` write them, with
# the inputs first and the gates in order.
# Usage: examples/to-binary-aiger.sh [CIRCUITS [BINARY]]
set -u
here=$(cd "$(dirname "$0")" && pwd)
. "$here/common.sh"
take "${1:-$here/equivalence.aag}" && in=$file
to=${2:-$work/circuits.aig}
keep_apart "$in" "$to"

# A gate is the differences of its numbers, each as bytes of seven bits, the lowest first; all but the last byte have their highest bit.
# Bytes come as octal numbers, since not every awk can print them, and printf makes them.
awk '
    function differ(d) {
        while (d > 127) { put(d % 128 + 128); d = int(d / 128) }
        put(d)
    }
    function put(byte) {
        row = row sprintf("\\%03o", byte)
        if (length(row) > 2000) { print row; row = "" }
    }
    function fail(text) { print "to-binary-aiger: line " FNR ": " text >"/dev/stderr"; failed = 1; exit 1 }
    FNR == 1 {
        if ($1 != "aag" || NF != 6 || $4 != 0 || $2 != $3 + $6) fail("no header of circuits whose gates stand behind the inputs")
        inputs = $3; outputs = $5; gates = $6
        print "aig " $2 " " inputs " 0 " outputs " " gates "\\n"; next
    }
    FNR <= 1 + inputs { if ($1 != 2 * (FNR - 1)) fail("the inputs are not in order"); next }
    FNR <= 1 + inputs + outputs { print $1 "\\n"; next }
    FNR <= 1 + inputs + outputs + gates {
        if ($1 != 2 * (FNR - 1 - outputs) || $2 >= $1 || $3 > $2) fail("the gates are not in order")
        differ($1 - $2); differ($2 - $3); next
    }
    { if (row != "") { print row; row = "" } print $0 "\\n" }
    END { if (!failed && row != "") print row; exit failed }' "$in" >"$work/escaped" || exit 1
while IFS= read -r line; do
    # shellcheck disable=SC2059
    printf "$line"
done <"$work/escaped" >"$to"
if [ $# -lt 2 ]; then
    find_abc
    "$abc" -c "read_aiger $to; print_stats"
fi
