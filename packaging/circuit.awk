# Draws a circuit file (ASCII AIGER) as SVG: inputs to the left, each gate behind those that it reads, outputs to the right; a ring at the end of a
# line stands for "not".
function wire(from, lit, x2, y2,    v, not_ring) {
    v = int(lit / 2)
    printf "<path d=\"M%d,%d L%d,%d\" stroke=\"black\" fill=\"none\"/>\n", px[v] + 24, py[v], x2 - (lit % 2 ? 8 : 0), y2
    if (lit % 2) printf "<circle cx=\"%d\" cy=\"%d\" r=\"4\" fill=\"white\" stroke=\"black\"/>\n", x2 - 4, y2
}
NR == 1 { inputs = $3; outputs = $5; gates = $6; next }
NR <= 1 + inputs { input[NR - 2] = int($1 / 2); next }
NR <= 1 + inputs + outputs { output[NR - 2 - inputs] = $1; next }
NR <= 1 + inputs + outputs + gates { g = int($1 / 2); order[++count] = g; left[g] = $2; right[g] = $3; next }
/^i/ { name[input[substr($1, 2)]] = $2 }
/^o/ { label[substr($1, 2)] = $2 }
END {
    for (i = 0; i < inputs; i++) level[input[i]] = 0
    for (k = 1; k <= count; k++) {
        g = order[k]; a = level[int(left[g] / 2)]; b = level[int(right[g] / 2)]
        level[g] = (a > b ? a : b) + 1
        if (level[g] > deepest) deepest = level[g]
    }
    for (i = 0; i < inputs; i++) { px[input[i]] = 40; py[input[i]] = 40 + 70 * filled[0]++ }
    for (k = 1; k <= count; k++) { g = order[k]; px[g] = 40 + 110 * level[g]; py[g] = 40 + 70 * filled[level[g]]++ + (level[g] == deepest ? 35 : 0) }
    for (l in filled) if (filled[l] > tallest) tallest = filled[l]
    if (outputs > tallest) tallest = outputs
    width = 40 + 110 * (deepest + 1) + 40
    printf "<svg xmlns=\"http://www.w3.org/2000/svg\" width=\"%d\" height=\"%d\" font-family=\"sans-serif\" font-size=\"13\" text-anchor=\"middle\">\n", width, 80 + 70 * (tallest - 1)
    print "<title>A circuit</title>"
    print "<rect width=\"100%\" height=\"100%\" fill=\"white\"/>"
    for (k = 1; k <= count; k++) { g = order[k]; wire(g, left[g], px[g] - 24, py[g] - 8); wire(g, right[g], px[g] - 24, py[g] + 8) }
    for (k = 0; k < outputs; k++) { y = py[int(output[k] / 2)]; wire(-1, output[k], width - 64, y); printf "<text x=\"%d\" y=\"%d\">%s</text>\n", width - 50, y + 4, label[k] }
    for (i = 0; i < inputs; i++) printf "<rect x=\"%d\" y=\"%d\" width=\"48\" height=\"28\" rx=\"2\" fill=\"#f2f2f2\" stroke=\"black\"/>\n<text x=\"%d\" y=\"%d\">%s</text>\n", px[input[i]] - 24, py[input[i]] - 14, px[input[i]], py[input[i]] + 4, name[input[i]]
    for (k = 1; k <= count; k++) { g = order[k]; printf "<rect x=\"%d\" y=\"%d\" width=\"48\" height=\"28\" rx=\"14\" fill=\"#cfe3f7\" stroke=\"black\"/>\n<text x=\"%d\" y=\"%d\">and</text>\n", px[g] - 24, py[g] - 14, px[g], py[g] + 4 }
    print "</svg>"
}
