#!/bin/sh
# Simplifies a formula, solves what is left with DepQBF (with CaDiCaL or MiniSat where no universal variable is left), and
# checks the log, so that the answer holds for the formula itself. Ends with 10 for true, 20 for false, 0 for no answer.
# Usage: examples/solve-with-depqbf.sh [IN [OPTION-OF-SIMPLIFY ..]]
set -u
here=$(cd "$(dirname "$0")" && pwd)
. "$here/common.sh"
in=${1:-$here/random.qdimacs}
take "$in"
[ $# -eq 0 ] || shift
[ $# -gt 0 ] || set -- --grow=16
out=$work/out.qdimacs
log=$work/log.qrat

# Solves OUT, by the status that QBF and SAT solvers share: 10 or 20.
solve() {
    if grep -q '^a' "$out"; then
        has depqbf || skip DepQBF depqbf
        by=depqbf
        depqbf "$out" >"$work/answer"
        return
    fi
    # a SAT solver reads no quantifiers
    grep -v '^e' "$out" >"$work/out.cnf"
    solve_sat "$work/out.cnf" "$work/answer"
}

line=$("$celdrinn" simplify "$file" "$out" "$log" "$@")
status=$?
echo "simplify: $line"
by=celdrinn
case $status in
    10 | 20) ;;
    0 | 2)
        solve
        status=$?
        ;;
    *) exit "$status" ;;
esac

checked=$("$celdrinn" check "$file" "$out" "$log") || { echo "check: $checked" && exit 1; }
echo "check: $checked"
case $status in
    10) echo "$in is true (by $by)" ;;
    20) echo "$in is false (by $by)" ;;
    *) echo "$by gave no answer" && exit 0 ;;
esac
exit "$status"
