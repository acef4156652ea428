#!/bin/sh
# Skolem functions of a formula of whose simplified form only existential variables are left: a SAT solver's model gives a
# constant for each of them, and rebuild carries these circuits back to the formula.
# They are written to CERT, or printed.
# Usage: examples/skolem-from-sat.sh [FORMULA [CERT]]
set -u
here=$(cd "$(dirname "$0")" && pwd)
. "$here/common.sh"
in=${1:-$here/one-block.qdimacs}
take "$in"
name_to "${2:-$work/cert}"
keep_apart "$in" "$to"

"$celdrinn" simplify "$file" "$work/out" "$work/log"
case $? in
    0 | 10) ;;
    20) echo "$in is false: there are no Skolem functions" && exit 0 ;;
    *) exit 1 ;;
esac
if grep -q '^a' "$work/out"; then
    echo "universal variables are left: a QBF solver is wanted"
    exit 1
fi
grep -v '^e' "$work/out" >"$work/cnf"
solve_sat "$work/cnf" "$work/model"
case $? in
    10) ;;
    20) echo "$in is false: there are no Skolem functions" && exit 0 ;;
    *) echo "$by gave no answer" && exit 1 ;;
esac

# OUT may use the number of a variable of IN that is gone for a new one, so its model is no assignment of IN; rebuild carries it
# back.
constants "$work/model" "$work/out" >"$work/skolem"
"$celdrinn" rebuild "$file" "$work/out" "$work/log" "$work/skolem" "$to" || exit 1
[ -n "${2:-}" ] || cat "$work/cert"
