#!/usr/bin/env bash
# Measures families of formulas from small to large, and writes a table of time and memory, and plots of both against size.
#
# Usage: bench/run.sh [--rungs=N] [--seconds=N] [--beside=NAME=PROGRAM] [--out=TABLE.tsv] [FAMILY ..]
#
# FAMILY is one of bench/families.py (its `list` says what they are) or `chains`, which has a log of its own and is only
# checked; all of them by default. The sizes give about 1,000, 4,000, 16,000, 64,000, 256,000 and 1,000,000 clauses; --rungs
# says how many of them are run, 3 by default. --seconds is the time that each run gets, 20 by default; a dash means that it was up.
#
# Beside `simplify` and `check` stand, where they are installed: MiniSat and CaDiCaL as preprocessors, for families without
# universals; DepQBF on the formula before and after, for those with some. PROGRAM is another build of Celdrinn, or any program
# with its words for `simplify`. The family `others` stands for the scripts beside this one, with their own sizes and words:
# reading, proofs of a SAT solver, circuits; what they say goes into files beside the table.
set -eu
# shellcheck source=common.sh
. "$(dirname "$0")/common.sh"
option_rungs=3 option_seconds=20 option_beside='' option_out=bench/out/table.tsv
take_words "rungs seconds beside out" "$@"
set -- "${names[@]}"
cd "$top"
rungs=$option_rungs limit=$option_seconds beside=$option_beside table=$option_out
# shellcheck disable=SC2046
[ $# -gt 0 ] || set -- $(bench/families.py list | sed -n 's/^\([a-z]\+\) .*/\1/p') chains
mkdir -p "$(dirname "$table")"

has() { command -v "$1" >/dev/null; }

# Runs a tool, and puts a line of the table: seconds, MiB, exit status, and what it said first.
row() {
    local tool=$1 taken
    shift
    /usr/bin/time -q -f '%U %S %M %x' -o "$work/taken" timeout "$limit" "$@" >"$work/said" 2>/dev/null || true
    taken=$(tail -n 1 "$work/taken" | awk '{
        if ($4 == 124) print "-\t-\t-"
        else printf "%.2f\t%.1f\t%d", $1 + $2, $3 / 1024, $4 }')
    printf '%s\t%s\t%s\t%s\t%s\t%s\n' "$family" "$size" "$clauses" "$tool" "$taken" \
        "$(grep -v -e '^c' -e '^WARNING' "$work/said" | head -n 1 | cut -c 1-60)" | tee -a "$table"
}

# The tools of others, on $work/in and what is left of it.
others() {
    if ! grep -q '^a' "$work/in"; then
        # SAT solvers read no quantifiers
        grep -v '^e' "$work/in" >"$work/cnf"
        ! has minisat || row minisat minisat -verb=0 -dimacs="$work/left" "$work/cnf"
        ! has cadical || row cadical cadical -q -P3 -c 0 -o "$work/left" "$work/cnf"
    elif has depqbf; then
        row depqbf-before depqbf "$work/in"
        [ ! -s "$work/out" ] || row depqbf-after depqbf "$work/out"
    fi
}

measure() {
    family=$1
    size=$2
    rm -f "$work/out"
    if [ "$family" = chains ]; then
        bench/chains.sh --write "$size" "$work"
        clauses=$size
        row check "$program" check "$work/in" "$work/out" "$work/log"
        return
    fi
    bench/families.py "$family" "$size" "$work/in"
    clauses=$(sed -n '1s/.* //p' "$work/in")
    row simplify "$program" simplify "$work/in" "$work/out" "$work/log"
    [ ! -s "$work/out" ] || row check "$program" check "$work/in" "$work/out" "$work/log"
    [ -z "$beside" ] || row "${beside%%=*}" "${beside#*=}" simplify "$work/in" "$work/left" "$work/left-log"
    others
}

sizes() {
    if [ "$1" = chains ]; then
        echo 1000 4000 16000 64000 256000 1000000
    else
        bench/families.py list | sed -n "/^$1 /{n;p;}"
    fi | tr -s ' ' '\n' | sed '/^$/d' | head -n "$rungs"
}

printf 'family\tsize\tclauses\ttool\tseconds\tMiB\tstatus\tline\n' | tee "$table"
for name in "$@"; do
    if [ "$name" = others ]; then
        for script in read proofs circuits; do
            [ ! -x "bench/$script.sh" ] || "bench/$script.sh" 2>&1 | tee "${table%.tsv}-$script.txt"
        done
        continue
    fi
    for size in $(sizes "$name"); do
        measure "$name" "$size"
    done
done
echo "table: $table"
bench/plot.sh "$table"
