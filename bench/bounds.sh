#!/usr/bin/env bash
# Measures which bounds of `simplify` help a solver: for each formula DepQBF alone, and after `simplify` with three pairs of bounds, each call
# with so many processor seconds. One line a formula goes to bench/out/bounds.tsv; what is printed is a table of the sums.
#
# Usage: bench/bounds.sh [--seconds=N] [FAMILY=SIZE,SIZE,.. ..]; wants depqbf. N is 3 if not said; FAMILY is one of bench/families.py.
set -u
# shellcheck source=common.sh
. "$(dirname "$0")/common.sh"
option_seconds=3
take_words seconds "$@"
want depqbf
set -- "${names[@]}"
cd "$top" || exit 1
[ $# -gt 0 ] || set -- qbf=100,150,200,250,300,400 random=100,200,300,400,500,600 gates=10,20,40,80,160,333 tower=10,40,100,308 parity=5,10,15,20,50,250 \
    adder=2,3,4,5,6,8,10,13,20,30,51 boxes=2,3,4,5,6,8,10,14,20,26 register=10,15,20,25,29,40 game=3,4,5,6,7,8,9 gripper=1,2,3,4 equal=50,476 cover=20,308
mkdir -p bench/out
table=bench/out/bounds.tsv

# Runs a command with so many processor seconds and tells its status.
limited() { (ulimit -t "$option_seconds" && exec "$@") >/dev/null 2>&1; }

# What becomes of a formula under bounds: `decided` by simplify, `solved` by the solver, or `open`.
play() {
    limited "$program" simplify "$work/f" "$work/g" /dev/null "$@"
    case $? in
        10 | 20) echo decided ;;
        0) solve "$work/g" ;;
        *) echo open ;;
    esac
}
solve() {
    limited depqbf "$1"
    case $? in
        10 | 20) echo solved ;;
        *) echo open ;;
    esac
}

printf 'family\tsize\talone\tdefault\tgrow 16\tgrow 200, expand 100\n' >"$table"
for family; do
    for size in $(echo "${family#*=}" | tr ',' ' '); do
        python3 bench/families.py "${family%%=*}" "$size" "$work/f" || exit 1
        printf '%s\t%s\t%s\t%s\t%s\t%s\n' "${family%%=*}" "$size" "$(solve "$work/f")" "$(play)" "$(play --grow=16)" "$(play --grow=200 --expand=100)" >>"$table"
    done
done
awk -F '\t' '
    NR == 1 { for (c = 3; c <= NF; c++) name[c] = $c; next }
    { if (!($1 in seen)) { seen[$1] = 1; order[++families] = $1 }
      all[$1]++
      for (c = 3; c <= 6; c++) if ($c != "open") { answers[$1, c]++; if ($c == "decided") decided[$1, c]++ } }
    END {
        print "| Family | Formulas | " name[3] " | " name[4] " | " name[5] " | " name[6] " |\n|---|---|---|---|---|---|"
        for (k = 1; k <= families; k++) {
            f = order[k]; row = "| " f " | " all[f]; n += all[f]
            for (c = 3; c <= 6; c++) {
                row = row " | " answers[f, c] + 0 (decided[f, c] ? " (" decided[f, c] ")" : "")
                sum[c] += answers[f, c]; outright[c] += decided[f, c]
            }
            print row " |"
        }
        row = "| all | " n
        for (c = 3; c <= 6; c++) row = row " | " sum[c] + 0 (outright[c] ? " (" outright[c] ")" : "")
        print row " |"
    }' "$table"
