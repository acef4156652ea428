#!/bin/sh
# Says whether circuits are Skolem functions of a formula, as `celdrinn validate` does, but asks a SAT solver, which may be faster where the
# circuits have many inputs: `celdrinn validate IN CERT --with=SOLVER` with CaDiCaL or MiniSat, whichever is here. A counterexample is tested by the
# program; that there is none rests on CaDiCaL's proof, where the program checks it, or on the solver (`valid by minisat`).
# Says `valid` and ends with 0, or `invalid` and values of universals under which a clause is false, with 9.
# Usage: examples/validate-with-sat.sh [IN CERT [OPTION ..]]
set -u
here=$(cd "$(dirname "$0")" && pwd)
. "$here/common.sh"
find_sat_solver || skip "CaDiCaL or MiniSat" cadical
[ $# -gt 0 ] || set -- "$here/equivalence.qdimacs" "$here/equivalence.aag"
# names may begin as options do
case $#:$1 in
    1:* | *:--*) ;;
    *)
        in=$1 cert=$2
        shift 2
        set -- "$@" -- "$in" "$cert"
        ;;
esac
"$celdrinn" validate --with="$sat" "$@"
