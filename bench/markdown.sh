#!/bin/sh
# Prints a table of bench/run.sh as Markdown: a line for each formula.
#
# Usage: bench/markdown.sh TABLE.tsv
[ "${1:---help}" != --help ] || { sed -n '2,4s/^# \{0,1\}//p' "$0" && exit; }
awk -F '\t' '
    function finish() {
        if (formula != "")
            print "| " formula " | " tools["simplify"] " | " said " | " tools["check"] " | " rest " |"
        delete tools
        rest = said = ""
    }
    BEGIN {
        print "| Family | Clauses | `simplify` | Its line | `check` | Others |"
        print "|---|---|---|---|---|---|"
    }
    NR > 1 {
        if ($1 " | " $3 != formula) finish()
        formula = $1 " | " $3
        taken = $5 == "-" ? "stopped" : $5 " s, " $6 " MiB"
        if ($4 == "simplify" || $4 == "check") tools[$4] = taken
        else rest = rest (rest == "" ? "" : "; ") $4 " " ($5 == "-" ? "stopped" : $5 " s")
        if ($4 == "simplify" && $8 != "") said = "`" $8 "`"
    }
    END { finish() }
' "$1"
