#!/bin/sh
# Draws the pictures of the pages, docs/pictures/*.svg: the pipelines as they are told below, the bars of "Which bounds" from the table of
# docs/PIPELINES.md. With --check it says which of them are not what is drawn, and ends with 1. With --circuit it draws a circuit file on standard
# output, as docs/pictures/lamp.svg was, from what `celdrinn certify examples/lamp.qdimacs` writes.
# Usage: packaging/pictures.sh [--check | --circuit AAG]
set -u
if [ "${1-}" = --circuit ]; then
    exec awk -f "$(dirname "$0")/circuit.awk" "$2"
fi
cd "$(dirname "$0")/.." || exit 1
work=$(mktemp -d) || exit 1
trap 'rm -rf "$work"' EXIT

# A pipeline: `file NAME COLUMN ROW`, `tool NAME COLUMN ROW` and `arrow NAME NAME`.
draw_pipeline() {
    awk -v title="$1" '
        function x(name) { return 70 + 105 * column[name] }
        function y(name) { return 40 + 62 * row[name] }
        $1 == "file" || $1 == "tool" {
            names[++count] = $2; kind[$2] = $1; column[$2] = $3; row[$2] = $4
            if ($3 > columns) columns = $3
            if ($4 > rows) rows = $4
        }
        $1 == "arrow" { from[++arrows] = $2; to[arrows] = $3 }
        END {
            printf "<svg xmlns=\"http://www.w3.org/2000/svg\" width=\"%d\" height=\"%d\" font-family=\"sans-serif\" font-size=\"13\" text-anchor=\"middle\">\n", 140 + 105 * columns, 80 + 62 * rows
            print "<title>" title "</title>"
            print "<defs><marker id=\"head\" markerWidth=\"8\" markerHeight=\"8\" refX=\"7\" refY=\"4\" orient=\"auto\"><path d=\"M0,0 L8,4 L0,8 z\"/></marker></defs>"
            print "<rect width=\"100%\" height=\"100%\" fill=\"white\"/>"
            for (i = 1; i <= arrows; i++) {
                a = from[i]; b = to[i]
                if (row[a] == row[b]) {
                    side = column[b] > column[a] ? 1 : -1
                    printf "<path d=\"M%d,%d H%d\" stroke=\"black\" fill=\"none\" marker-end=\"url(#head)\"/>\n", x(a) + 42 * side, y(a), x(b) - 44 * side
                } else if (column[a] == column[b]) {
                    side = row[b] > row[a] ? 1 : -1
                    printf "<path d=\"M%d,%d V%d\" stroke=\"black\" fill=\"none\" marker-end=\"url(#head)\"/>\n", x(a), y(a) + 15 * side, y(b) - 17 * side
                } else {
                    # along the row of the first, then to the second
                    side = row[b] > row[a] ? 1 : -1
                    printf "<path d=\"M%d,%d H%d V%d\" stroke=\"black\" fill=\"none\" marker-end=\"url(#head)\"/>\n", x(a) + (column[b] > column[a] ? 42 : -42), y(a), x(b), y(b) - 17 * side
                }
            }
            for (i = 1; i <= count; i++) {
                name = names[i]
                printf "<rect x=\"%d\" y=\"%d\" width=\"84\" height=\"30\" rx=\"%d\" fill=\"%s\" stroke=\"black\"/>\n", x(name) - 42, y(name) - 15, kind[name] == "tool" ? 15 : 2, kind[name] == "tool" ? (name ~ /solver|DepQBF|ABC/ ? "#f6d8a8" : "#cfe3f7") : "#f2f2f2"
                label = name; gsub(/_/, " ", label)
                printf "<text x=\"%d\" y=\"%d\"%s>%s</text>\n", x(name), y(name) + 4, (length(label) > 11) ? " font-size=\"11\"" : "", label
            }
            print "</svg>"
        }'
}

# The bars of a row of a table of docs/PIPELINES.md: how many formulas of all were solved behind which bounds.
draw_bars() {
    awk -F ' *[|] *' '
        /^[|] Formulas [|]/ { for (i = 3; i < NF; i++) name[i] = $i }
        /^[|] all, [0-9]+ [|]/ {
            all = $2; sub(/[^0-9]*/, "", all)
            print "<svg xmlns=\"http://www.w3.org/2000/svg\" width=\"640\" height=\"" 50 + 34 * (NF - 3) "\" font-family=\"sans-serif\" font-size=\"13\">"
            print "<title>Formulas that DepQBF solves within a second, of " all "</title>"
            print "<rect width=\"100%\" height=\"100%\" fill=\"white\"/>"
            print "<text x=\"10\" y=\"20\">solved within a second, of " all "; darker: by simplify alone</text>"
            for (i = 3; i < NF; i++) {
                split($i, part, /[ ()]+/)
                label = name[i]; gsub(/`/, "", label)
                top = 34 * (i - 2)
                printf "<text x=\"10\" y=\"%d\">%s</text>\n", top + 15, label
                printf "<rect x=\"230\" y=\"%d\" width=\"%d\" height=\"22\" fill=\"#cfe3f7\"/>\n", top, 5 * part[1]
                printf "<rect x=\"230\" y=\"%d\" width=\"%d\" height=\"22\" fill=\"#7fb0dd\"/>\n", top, 5 * part[2]
                printf "<text x=\"%d\" y=\"%d\">%d</text>\n", 236 + 5 * part[1], top + 15, part[1]
            }
            print "</svg>"
        }' docs/PIPELINES.md
}

mkdir "$work/pictures"
draw_pipeline "A formula before a solver, and its circuits back" >"$work/pictures/rebuild.svg" <<'END'
file IN 0 0
tool simplify 1 0
file OUT 2 0
tool solver 3 0
file SKOLEM 4 0
file LOG 1 1
tool check 0 1
tool rebuild 4 1
file CERT 5 1
tool validate 6 1
arrow IN simplify
arrow simplify OUT
arrow OUT solver
arrow solver SKOLEM
arrow simplify LOG
arrow LOG check
arrow LOG rebuild
arrow SKOLEM rebuild
arrow rebuild CERT
arrow CERT validate
END
draw_pipeline "An answer with a certificate" >"$work/pictures/certify.svg" <<'END'
file IN 0 0
tool simplify 1 0
file OUT 2 0
tool DepQBF 3 0
file TRACE 4 0
tool extract 5 0
file CIRCUITS 5 1
file LOG 1 1
tool rebuild/refute 3 1
file CERT 3 2
arrow IN simplify
arrow simplify OUT
arrow OUT DepQBF
arrow DepQBF TRACE
arrow TRACE extract
arrow simplify LOG
arrow extract CIRCUITS
arrow CIRCUITS rebuild/refute
arrow LOG rebuild/refute
arrow rebuild/refute CERT
END
draw_pipeline "A SAT solver's proof, and one that begins behind simplify" >"$work/pictures/proof.svg" <<'END'
file CNF 0 0
tool SAT_solver 1 0
file PROOF 2 0
tool disprove 3 0
arrow CNF SAT_solver
arrow SAT_solver PROOF
arrow PROOF disprove
END
draw_pipeline "Circuits that a SAT solver decides" >"$work/pictures/decide.svg" <<'END'
file IN 0 0
file CERT 0 1
tool miter 1 0
file OUT 2 0
tool SAT_solver 3 0
file PROOF 4 0
tool disprove 5 0
arrow IN miter
arrow CERT miter
arrow miter OUT
arrow OUT SAT_solver
arrow SAT_solver PROOF
arrow PROOF disprove
END
draw_pipeline "Synthesis from a circuit, and a smaller circuit back" >"$work/pictures/circuits.svg" <<'END'
file CIRCUIT 0 0
tool ABC 1 0
file IN 2 0
tool certify 3 0
file CERT 4 0
tool ABC_again 5 0
file SMALLER 5 1
tool validate 4 1
arrow CIRCUIT ABC
arrow ABC IN
arrow IN certify
arrow certify CERT
arrow CERT ABC_again
arrow ABC_again SMALLER
arrow SMALLER validate
END
draw_bars >"$work/pictures/bounds.svg"
for picture in "$work/pictures"/*; do
    grep -q '^</svg>' "$picture" || { echo "${picture##*/} was not drawn" >&2 && exit 1; }
done

if [ "${1-}" = --check ]; then
    for picture in "$work/pictures"/*; do
        cmp -s "$picture" "docs/pictures/${picture##*/}" || { echo "docs/pictures/${picture##*/} is not what is drawn" >&2 && exit 1; }
    done
    exit
fi
mkdir -p docs/pictures && cp "$work/pictures"/* docs/pictures/
