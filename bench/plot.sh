#!/usr/bin/env bash
# Draws a table of bench/run.sh: a field for each family with a line for each tool, over the number of clauses; the grey line
# grows in proportion. Beside TABLE.tsv it writes TABLE-time.png and TABLE-memory.png.
#
# Usage: bench/plot.sh TABLE.tsv; wants gnuplot (on Debian gnuplot-nox)
set -eu
# shellcheck source=common.sh
. "$(dirname "$0")/common.sh"
take_words "" "$@"
table=${names[0]:?a table of bench/run.sh}
command -v gnuplot >/dev/null || {
    echo "no plot: gnuplot is not installed (on Debian: apt-get install gnuplot-nox)"
    exit 0
}

# a file for each line that is drawn: clauses, seconds, MiB
awk -F '\t' -v work="$work" 'NR > 1 && $5 != "-" { print $3, $5, $6 >(work "/" $1 "." $4) }' "$table"
families=$(awk -F '\t' 'NR > 1 && !seen[$1]++ { print $1 }' "$table")
tools=$(awk -F '\t' 'NR > 1 && !seen[$4]++ { print $4 }' "$table")
# one field more says which line is which tool's
count=$(($(echo "$families" | wc -l) + 1))
columns=$((count < 5 ? count : 5))
rows=$(((count + columns - 1) / columns))

# The commands for one picture: what it shows, its column, the least value, what the grey line says of one clause.
commands() {
    echo "set terminal pngcairo size $((columns * 380)), $((rows * 300 + 40)) font 'sans,9'"
    echo "set multiplot layout $rows,$columns title '$1, by clauses'"
    echo "set logscale xy; set format x '%.0s%c'; set yrange [$3:*]; set key off; set grid"
    for family in $families; do
        echo "set title '$family'"
        local line="plot $4 * x with lines linecolor 'gray'" number=0
        for tool in $tools; do
            number=$((number + 1))
            [ ! -f "$work/$family.$tool" ] ||
                line+=", '$work/$family.$tool' using 1:(\$$2 < $3 ? $3 : \$$2) with linespoints linecolor $number"
            [ ! -f "$work/$family.$tool" ] || line+=" pointtype 7 pointsize 0.6"
        done
        echo "$line"
    done
    legend
}

legend() {
    local line="plot NaN with lines linecolor 'gray' title 'in proportion'" number=0
    for tool in $tools; do
        number=$((number + 1))
        line+=", NaN with linespoints linecolor $number pointtype 7 pointsize 0.6 title '$tool'"
    done
    echo "set title ''; unset border; unset tics; set key center center; set xrange [1:2]; set yrange [1:2]; $line"
}

for what in time memory; do
    picture=${table%.tsv}-$what.png
    {
        echo "set output '$picture'"
        if [ "$what" = time ]; then
            commands "Processor seconds" 2 0.01 0.00001
        else
            commands "Peak memory in MiB" 3 1 0.0005
        fi
    } | gnuplot
    echo "plot: $picture"
done
