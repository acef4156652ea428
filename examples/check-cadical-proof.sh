#!/bin/sh
# Checks a SAT solver's proof that a CNF is unsatisfiable: CaDiCaL is asked for one, or PROOF is one that is there already, as text or in
# binary (`-` is standard input). `celdrinn disprove` reads proofs as solvers write them.
# With a second name a log is made of the proof, which has to be a text, and is written there with hints: it leads from the CNF to the empty
# clause, and is checked once more by its hints.
# Usage: examples/check-cadical-proof.sh [--proof=PROOF] [CNF [HINTED]]
set -u
here=$(cd "$(dirname "$0")" && pwd)
. "$here/common.sh"
proof=
case ${1-} in --proof=*) proof=${1#--proof=} && shift ;; esac
named=${1:-$here/pigeons.cnf}
take "$named" && in=$file
name_to "${2:-}"
[ $# -lt 2 ] || keep_apart "$named" "$to"

if [ -n "$proof" ]; then
    take "$proof" && proof=$file
else
    has cadical || skip CaDiCaL cadical
    proof=$work/proof
    form=
    [ $# -lt 2 ] || form=--no-binary
    # shellcheck disable=SC2086
    cadical -q $form "$in" "$proof" >"$work/answer"
    case $? in
        20) ;;
        10) echo "$named is satisfiable: there is no proof to check" && exit 0 ;;
        *) echo "cadical gave no answer" && exit 1 ;;
    esac
fi

# The clauses of a CNF, one a line, however its lines are broken.
clauses() {
    awk '{ gsub(/\r/, " ") }
        /^[ \t]*c/ { next }
        { for (i = 1; i <= NF; i++) {
            if (heading > 0) heading--
            else if ($i == "p") heading = 3
            else if ($i + 0 == 0) { print clause "0"; clause = "" }
            else clause = clause ($i + 0) " "
        } }' "$1"
}

# The clauses that the solver deletes stay: `check` wants a reason for each deletion. Once the empty clause is there, it is
# the reason for all of them, so at the end all other clauses and all variables go, and of empty clauses all but one.
make_log() {
    [ "$(LC_ALL=C tr -d '\t\n\r -~' <"$proof" | wc -c)" -eq 0 ] || { echo "hints are made of a proof that is a text" && exit 1; }
    clauses "$in" >"$work/clauses"
    grep -v '^[dc]' "$proof" >"$work/added"
    {
        cat "$work/added"
        cat "$work/clauses" "$work/added" | grep -v '^0$' | sed 's/^/d /'
        cat "$work/clauses" "$work/added" | grep '^0$' | sed -e 1d -e 's/^/d /'
        tr -s ' -' '\n' <"$work/clauses" | grep -v -E '^0?$' | sort -nu | sed 's/.*/r & 0/'
    } >"$work/log"
    printf 'p cnf 0 1\n0\n' >"$work/out"
}

"$celdrinn" disprove "$in" "$proof"
[ $? -eq 20 ] || exit 1
echo "$named is unsatisfiable: the proof is right"
if [ $# -ge 2 ]; then
    make_log
    "$celdrinn" annotate "$in" "$work/out" "$work/log" "$to" && "$celdrinn" check "$in" "$work/out" "$to"
fi
