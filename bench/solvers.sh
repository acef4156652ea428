#!/usr/bin/env bash
# The trials of what solvers write, one after the other, as bench/RESULTS.md has them: traces for `extract`, circuits for `miter`, proofs for
# `disprove`. On a free machine it takes about an hour, on a busy one many. What is said goes to bench/out/solvers/NAME as well.
#
# Usage: bench/solvers.sh [--quick] [--formulas=FOLDER] [NAME ..]; wants depqbf, cadical, picosat
#
# NAME is one of traces, chain, speed, miters, scale, proofs. --quick makes a tenth of each. --formulas names those of `chain`, by default some of
# bench/families.py.
set -u
# shellcheck source=common.sh
. "$(dirname "$0")/common.sh"
option_quick='' option_formulas=
take_words "quick formulas" "$@"
set -- "${names[@]}"
cd "$top/bench" || exit 1
share=1
[ -z "$option_quick" ] || share=10
out=out/solvers
mkdir -p $out
of() { echo $(($1 / share)); }

small_formulas() {
    mkdir -p $out/formulas
    for family in adder boxes equal game gates gripper parity qbf random register tower; do
        for size in $(./families.py list | grep -A1 "^$family " | awk 'END { print $1, $2 }'); do
            [ -s "$out/formulas/$family-$size" ] || ./families.py "$family" "$size" "$out/formulas/$family-$size"
        done
    done
}

trial() {
    case $1 in
        traces)
            ./traces.py random 0 "$(of 3000)"
            ./traces.py random 3000 $((3000 + $(of 1500))) eager plain-long eager-long
            ./traces.py larger 0 "$(of 400)" plain plain-long eager-long
            ./traces.py mutated 0 "$(of 400)"
            ;;
        chain)
            [ -n "$option_formulas" ] || { small_formulas && option_formulas=$out/formulas; }
            ./traces.py folder "$option_formulas"
            ./traces.py chain 3 "$option_formulas"/*
            ;;
        speed) if [ $share -gt 1 ]; then ./extracting.sh 13; else ./extracting.sh --counted 13 && ./extracting.sh 16 19; fi ;;
        miters)
            ./mitering.py random 0 "$(of 1000)"
            ./mitering.py traced 0 "$(of 1000)"
            ;;
        scale) if [ $share -gt 1 ]; then ./mitering.py scale 10 5 100 50 10; else ./mitering.py scale 300 5 500 5 5000 5 50000 50 9 50 90 50 900 500 1 500 9 500 90; fi ;;
        proofs)
            ./disproving.py right "$(of 200)"
            ./disproving.py mutated "$(of 2000)"
            ;;
        *) echo "no such trial: $1" >&2 && exit 64 ;;
    esac
}

[ $# -gt 0 ] || set -- traces miters proofs speed scale chain
for name; do
    echo "== $name, $(date -u +%H:%M)"
    trial "$name" 2>&1 | tee "$out/$name"
done
