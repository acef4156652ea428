# shellcheck shell=sh
# `celdrinn validate IN CERT --with=SOLVER`: `miter` makes clauses that are false exactly where the circuits are right, and a SAT solver decides
# them. A model of them is given to the program as unit clauses, and it answers itself that the clauses can be true; CaDiCaL's proof that they
# can't is checked by `disprove`, where the program has it. Otherwise the line names the solver that it rests on: `valid by cadical`.

# Runs the program within the time that `allow` has set, and sets `line`, `status` and `words` as `run` does; 124 where the time was over.
call() {
    words=$work/said
    (close_ours && exec $tied $within "$program" "$@" </dev/null >"$work/line" 2>"$words") &
    child=$!
    wait "$child"
    status=$?
    child=
    line=$(cat "$work/line")
}

# Runs a SAT solver on a CNF, and sets `status` to 10, 20 or something else; its model goes to a file. With a third word its proof is handed to
# `disprove`, and `is_proved` says whether that found it right.
solve_cnf() {
    is_proved=
    # shellcheck disable=SC2086
    (close_ours && tied_solver "$1" "$2" ${3:+"$work/proof"}) &
    child=$!
    wait "$child"
    status=$?
    child=
    [ -n "${3-}" ] && [ $status -eq 20 ] || return 0
    call disprove "$1" "$work/proof"
    [ "$status" -ne 20 ] || is_proved=yes
    rm -f "$work/proof"
    status=20
}
tied_solver() {
    within="$tied $within"
    become_sat_solver "$sat" "$1" "$2.said" ${3+"$3"} </dev/null
}

# Whether the program has a command, by the table of words.
has_command() { (find_line "$1"); }

# The values of a formula's universals, or of its existentials, in a model: the kind, the formula in the program's form, the model.
values() {
    awk -v kind="$1" 'FILENAME == ARGV[1] { for (i = 2; i <= NF; i++) value[$i < 0 ? -$i : $i] = $i; next }
        $1 == kind { for (i = 2; i < NF; i++) printf " %s", ($i in value) ? value[$i] : $i }' "$3" "$2"
}

# The clauses with the literals of a model as unit clauses.
with_model() {
    awk 'FILENAME == ARGV[1] { for (i = 2; i <= NF; i++) if ($i != 0) unit[++count] = $i; next }
        $1 == "p" { print "p cnf", $3, $4 + count; next }
        { print }
        END { for (i = 1; i <= count; i++) print unit[i], 0 }' "$2" "$1"
}

# Decides by `sat` whether circuits are right for a formula, and sets `line` and `status` as `validate` does. The third word is --herbrand
# or nothing.
decide_circuits() {
    allow || { line=unknown status=12 && return; }
    # shellcheck disable=SC2086
    call miter "$1" "$2" "$work/miter" $3
    case $status in
        0) ;;
        124) line=unknown status=12 && return ;;
        *) return ;;
    esac
    proof=
    case ${sat##*/} in cadical) ! has_command disprove || proof=yes ;; esac
    solve_cnf "$work/miter" "$work/miter.model" $proof
    case $status in
        10) refute_circuits "$1" "$3" ;;
        20)
            line="valid by ${sat##*/}" status=0
            [ -z "$is_proved" ] || line=valid
            ;;
        *) line=unknown status=12 ;;
    esac
}
# The solver has a model: the program is asked whether the clauses are true under it.
refute_circuits() {
    model_of "$work/miter.model.said" >"$work/miter.model"
    with_model "$work/miter" "$work/miter.model" >"$work/tested"
    call simplify "$work/tested" /dev/null //dev/null
    if [ "$status" -ne 10 ]; then
        say "${sat##*/}'s model is none"
        line=unknown status=12
        return
    fi
    case $2 in --herbrand) kind=e ;; *) kind=a ;; esac
    call simplify "$1" "$work/plain" /dev/null --budget=0
    line="invalid$(values $kind "$work/plain" "$work/miter.model")" status=9
}

# `validate` with a solver: $1 is the formula, $2 the circuits.
run_decided() {
    sat=$solver
    if ! has "$sat"; then
        say "the solver '$sat' is not here"
        line=unknown status=12 is_told=yes
        return
    fi
    store "$1" given && in=$file || return
    store "$2" circuits && cert=$file || return
    tie
    decide_circuits "$in" "$cert" "$herbrand"
    case $line in
        unknown) is_told=yes && say "no answer by ${sat##*/}${seconds:+ within $seconds seconds}" ;;
    esac
}
