#!/bin/sh
# Prints the sizes of formulas, one line each: clauses, literals, variables that occur, existential and universal ones, and blocks of them.
# (The measures in the line of `simplify` can't be compared between runs with other bounds; these can.)
# Usage: examples/sizes.sh FORMULA ..
set -u
here=$(cd "$(dirname "$0")" && pwd)
. "$here/common.sh"
[ $# -gt 0 ] || set -- "$here/random.qdimacs" "$here/lamp.qdimacs"
for formula; do
    take "$formula"
    NAME=$formula awk '
        /^[ \t\r]*c/ { next }
        { gsub(/\r/, " "); for (i = 1; i <= NF; i++) {
            if (heading > 0) heading--
            else if ($i == "p") heading = 3
            else if ($i == "a" || $i == "e") set = $i
            else if (set != "") { if ($i + 0 == 0) set = ""; else { order[++bound] = $i + 0; of[$i + 0] = set } }
            else if ($i + 0 == 0) clauses++
            else { literals++; occurs[$i < 0 ? -$i : $i + 0] = 1 }
        } }
        END {
            for (v in occurs) { variables++; if (!(v in of)) blocks = 1; else if (of[v] == "a") universals++ }
            last = blocks ? "e" : ""
            for (k = 1; k <= bound; k++) if (order[k] in occurs && of[order[k]] != last) { last = of[order[k]]; blocks++ }
            print ENVIRON["NAME"] ": " clauses + 0 " clauses, " literals + 0 " literals, " variables + 0 " variables (" variables - universals " existential, " universals + 0 " universal) in " blocks + 0 " blocks"
        }' "$file"
done
