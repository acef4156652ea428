# shellcheck shell=sh
# Solvers that the launcher calls, and the time that a call may take. The scripts of examples/ read this file too. It runs nothing by itself, and
# nothing that a solver says is believed here.

has() { command -v "$1" >/dev/null; }

# Sets `sat` to a SAT solver that is here: CaDiCaL, which writes proofs, or MiniSat.
find_sat_solver() {
    for sat in cadical minisat; do
        has $sat && return 0
    done
    sat=
    return 1
}

# A time for the whole call, where one is given.
deadline=''
set_deadline() { [ -z "$1" ] || deadline=$(($(date +%s) + $1)); }

# Sets `within` to the words that give a command so many seconds (without a number: any time), and not more than are left in all. Fails where
# none is left.
allow() {
    granted=${1-}
    if [ -n "$deadline" ]; then
        left=$((deadline - $(date +%s)))
        [ $left -gt 0 ] || return 1
        if [ -z "$granted" ] || [ "$granted" -gt $left ]; then granted=$left; fi
    fi
    within=${granted:+timeout --foreground $granted}
}

# Becomes a SAT solver: its command, a CNF, a file for what it says, and a file for CaDiCaL's proof, where one is wanted. It is for a subshell,
# which ends with 10 for satisfiable and 20 for unsatisfiable.
become_sat_solver() {
    case ${1##*/} in
        minisat) exec $within "$1" -verb=0 "$2" "$3" >/dev/null 2>&1 ;;
        cadical) exec $within "$1" -q ${4+--no-binary} "$2" ${4+"$4"} >"$3" 2>/dev/null ;;
        *) exec $within "$1" "$2" >"$3" 2>/dev/null ;;
    esac
}

# The literals of the model that a SAT solver has left in a file, as `v` lines.
model_of() { [ ! -f "$1" ] || sed -n -e 's/^\(-\{0,1\}[0-9]\)/v \1/p' -e '/^v /p' "$1"; }

# Circuits that are constants, for the existentials of a formula of the program's own form (the second file): 1 for what a solver's `v` or `V`
# lines in the first file say is true, and 0 for all others.
constants() {
    awk 'FILENAME == ARGV[1] { if ($1 == "v" || $1 == "V") for (i = 2; i <= NF; i++) if ($i > 0) is_true[$i] = 1; next }
        $1 == "e" { for (i = 2; i < NF; i++) variable[count++] = $i }
        END {
            print "aag 0 0 0 " count + 0 " 0"
            for (i = 0; i < count; i++) print (variable[i] in is_true) ? 1 : 0
            for (i = 0; i < count; i++) print "o" i " " variable[i]
        }' "$1" "$2"
}
