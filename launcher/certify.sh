# shellcheck shell=sh
# `celdrinn certify IN CERT`: decides a formula, and writes circuits that show the answer. `simplify` makes it smaller, DepQBF solves what is left
# with a trace of its proof, `extract` makes circuits of the trace, which goes through a pipe and is stored nowhere, and `rebuild` or `refute`
# carries them back. No solver is believed.
#
# There are several ways, and nobody knows which one is short: each gets some seconds, and those that did not end get four times as many, until
# one gives circuits of IN, none is left, or the time of the call is over. Where there are two processors, two lanes share the ways, beside each
# other: the first circuits are taken, and the other lane is ended.

first_span=4

# A step that is shown as progress is.
note() { [ -z "$is_shown" ] || say "$*"; }

# Ways that have come to an end, and whether one of the others did not have the time for it.
ended=' ' pending=''
is_ended() { case $ended in *" $1 "*) return 0 ;; *) return 1 ;; esac; }
end_way() { ended="$ended$1 "; }

# The time of a way; one that gets none is left for later. A lane ends where the launcher is gone.
allow_way() {
    kill -0 $$ 2>/dev/null || exit 5
    allow $span && return 0
    pending=yes
    return 1
}

# The options of `simplify` for what a way begins with. Large bounds come later: more literals of a false formula go by extended reduction then,
# over which `refute` carries nothing back. The last one leaves IN as it is.
bounds_of() {
    case $1 in
        weak) echo --grow=16 ;;
        strong) echo --grow=200 --expand=64 ;;
        large) echo --expand=10000 ;;
        plain) echo --grow=200 --expand=64 --plain ;;
        itself) echo --budget=0 ;;
    esac
}

# What `simplify` leaves, made once: sets `answer` to 10 or 20, where that is known then, or to nothing. Fails where there is nothing to go on with.
simplify_once() {
    answer=
    if [ -f "$work/$1.answer" ]; then answer=$(cat "$work/$1.answer") && return 0; fi
    allow_way || return 1
    # shellcheck disable=SC2046
    call simplify "$in" "$work/$1.out" "$work/$1.log" $(bounds_of "$1")
    note "simplify $(bounds_of "$1"): ${line:-no answer in time}"
    case $status in
        10 | 20) answer=$status ;;
        0 | 2) [ "$1" != large ] || [ "$(blocks "$work/large.out")" -le 1 ] || { end_way large && return 1; } ;;
        124) pending=yes && return 1 ;;
        3 | 4 | 5) is_over=yes && return 1 ;;
        *) end_way "$1" && return 1 ;;
    esac
    echo "$answer" >"$work/$1.answer"
}

# A solver's answer with a trace, and circuits of it: sets `answer`.
try_trace() {
    is_ended "$1-$2" && return
    allow_way || return
    [ -p "$work/trace" ] || mkfifo "$work/trace" || finish 5
    # shellcheck disable=SC2086
    (close_ours && exec $tied $within depqbf --trace=qrp --dep-man=simple $2 ${3-} --no-qbce-dynamic "$work/$1.out" </dev/null >"$work/trace" 2>/dev/null) &
    beside=$!
    allow
    call extract "$work/$1.out" "$work/trace" "$work/$1.circuits"
    kill "$beside" 2>/dev/null
    wait "$beside"
    solved=$?
    beside=
    [ $solved -ne 124 ] || line="the solver had no answer in time"
    note "  extract, of a trace of depqbf $2${3:+ $3}: ${line:-no answer in time}"
    case $status in
        10 | 20) answer=$status ;;
        *) if [ $solved -eq 124 ] || [ "$status" -eq 124 ]; then pending=yes; else end_way "$1-$2"; fi ;;
    esac
}

# The same where no universal variable is left: the circuits are the constants of a SAT solver's model, where `validate` finds them right,
# or none at all, where `disprove` finds its proof right.
try_model() {
    is_ended "$1-model" && return
    allow_way || return
    grep -v '^e' "$work/$1.out" >"$work/cnf"
    proof=
    case $sat in cadical) ! has_command disprove || proof=yes ;; esac
    solve_cnf "$work/cnf" "$work/model" $proof
    case $status:$is_proved in
        10:*)
            model_of "$work/model.said" >"$work/model"
            constants "$work/model" "$work/$1.out" >"$work/$1.circuits"
            allow && call validate "$work/$1.out" "$work/$1.circuits"
            note "  validate, of the model of $sat: $line"
            [ "$status" -ne 0 ] || answer=10
            ;;
        20:yes)
            note "  disprove, of the proof of $sat: $line"
            echo 'aag 0 0 0 0 0' >"$work/$1.circuits" && answer=20
            ;;
        124:*) pending=yes && return ;;
    esac
    [ -n "$answer" ] || end_way "$1-model"
}

# Where DepQBF is not here, the program's own search, which gives circuits of true formulas.
try_search() {
    is_ended "$1-search" && return
    allow_way || return
    call solve "$work/$1.out" /dev/null //dev/null "$work/$1.circuits"
    note "  solve: ${line:-no answer in time}"
    case $status in
        10) answer=10 ;;
        124) pending=yes ;;
        *) end_way "$1-search" ;;
    esac
}

# Decides what is left: sets `answer` where circuits of it are there.
decide() {
    if ! grep -q '^a' "$work/$1.out" && [ -n "$sat" ]; then try_model "$1"; fi
    if ! has depqbf; then
        [ -n "$answer" ] || try_search "$1"
        return
    fi
    [ -n "$answer" ] || [ -z "$reads_long" ] || try_trace "$1" --long-dist-res --traditional-qcdcl
    [ -n "$answer" ] || try_trace "$1" --traditional-qcdcl
    [ -n "$answer" ] || try_trace "$1" --no-lazy-qpup
}

# A trace with a merged variable, of the formula that there is a 1 with 1 = not 2 for all 2: whether `extract` reads long-distance resolution.
look_whether_long() {
    printf 'p cnf 2 2\ne 1 0\na 2 0\n1 2 0\n-1 -2 0\n' >"$work/merged"
    printf 'p qrp 2 2\ne 1 0\na 2 0\n1 1 2 0 0\n2 -1 -2 0 0\n3 2 -2 0 1 2 0\n4 0 3 0\nr UNSAT\n' >"$work/merged.trace"
    reads_long=
    call extract "$work/merged" "$work/merged.trace" "$work/merged.circuits"
    [ "$status" -ne 20 ] || reads_long=yes
}

# One way: simplifies, decides and carries back. Ends with 0 where circuits of IN are there, and `answer` is set.
certify_by() {
    is_ended "$1" && return 1
    simplify_once "$1" || return 1
    case $answer in
        '') decide "$1" ;;
        *) echo 'aag 0 0 0 0 0' >"$work/$1.circuits" ;;
    esac
    case $answer in
        10) back=rebuild ;;
        20) back=refute ;;
        *) return 1 ;;
    esac
    allow || { pending=yes && return 1; }
    call $back "$in" "$work/$1.out" "$work/$1.log" "$work/$1.circuits" "$work/cert"
    note "  $back: ${line:-no answer in time}"
    [ "$status" -ne 0 ] || return 0
    [ "$status" -ne 8 ] || is_extended=yes
    end_way "$1"
    return 1
}

# These ways, with more and more time. That a literal went by extended reduction is told to the other lane by a file.
certify_by_ways() {
    while :; do
        pending=
        for name; do
            [ ! -f "$all/extended" ] || is_extended=yes
            case $name:$is_extended in
                plain:yes) has_plain || continue ;;
                plain: | strong:yes | large:yes) continue ;;
            esac
            certify_by $name && return 0
            [ -z "$is_over" ] || return 1
            [ -z "$is_extended" ] || : >"$all/extended"
        done
        [ -n "$pending" ] && allow || return 1
        span=$((span * 4))
    done
}
has_plain() { (find_line simplify && case " $third " in *' plain '*) ;; *) exit 1 ;; esac); }

# A lane works in a folder of its own, the second one a second later, since most answers are there by then. At its end it leaves there what it has, and writes one byte to the launcher.
run_lane() {
    lane=$1
    shift
    work=$all/$lane
    trap 'end_lane 143' TERM HUP
    trap 'printf %s "$lane" >&"$ends"' EXIT
    mkdir "$work" || exit 5
    [ -z "$delay" ] || { sleep "$delay" & child=$! && wait "$child" && child=; }
    if certify_by_ways "$@"; then echo "$answer" >"$work/found"; fi
    [ -z "$is_over" ] || printf '%s\n%s\n' "$status" "$line" >"$work/over"
    [ -z "$pending" ] || : >"$work/pending"
    exit 0
}
end_lane() {
    trap '' TERM HUP
    [ -z "$child" ] || kill -TERM "$child" 2>/dev/null
    [ -z "$beside" ] || kill -TERM "$beside" 2>/dev/null
    wait
    exit "$1"
}

# Waits until a lane has ended, and sets `lane`. A signal that comes meanwhile is not kept waiting.
wait_for_lane() {
    (close_ours "$ends" && eval "exec <&$ends" && exec dd bs=1 count=1 2>/dev/null) >"$all/ended" &
    child=$!
    wait "$child"
    child=
    lane=$(cat "$all/ended")
}

# What a lane has left. Fails where the other one may still find something.
take_lane() {
    [ ! -f "$all/$lane/pending" ] || pending=yes
    if [ -f "$all/$lane/over" ]; then
        is_over=yes words=$all/$lane/said
        { read -r status && read -r line; } <"$all/$lane/over"
    elif [ -f "$all/$lane/found" ]; then
        answer=$(cat "$all/$lane/found")
        mv "$all/$lane/cert" "$work/cert"
    else
        return 1
    fi
}

has_two_processors() { [ "$(getconf _NPROCESSORS_ONLN 2>/dev/null || echo 1)" -gt 1 ]; }

# All ways, in two lanes where that can be. Ends with 0 where circuits of IN are there, and `answer` is set.
certify() {
    all=$work
    if ! has_two_processors; then
        certify_by_ways weak strong large plain itself
        return
    fi
    mkfifo "$work/ends" || finish 5
    spare_number && ends=$number && eval "exec $ends<>\"\$work/ends\""
    delay='' && run_lane 1 weak large plain &
    lanes=$!
    delay=1 && run_lane 2 strong itself &
    lanes="$lanes $!"
    answer='' pending=''
    wait_for_lane
    take_lane || { wait_for_lane && take_lane; }
    end_lanes
    [ -n "$answer" ]
}

# Tests the circuits once more, on IN itself: by `validate`, or by a SAT solver.
check_circuits() {
    line=
    if [ "$answer" -eq 10 ] && allow 10; then call validate "$in" "$work/cert"; fi
    case $line in
        '')
            tested=--herbrand
            [ "$answer" -ne 10 ] || tested=
            if [ -n "$sat" ]; then decide_circuits "$in" "$work/cert" $tested; else line="a SAT solver is not here"; fi
            ;;
    esac
    case $line in
        valid*) note "tested once more: $line" ;;
        invalid* | circuits*) say "the circuits are not right: $line" ;;
        *) say "the circuits could not be tested once more: $line" ;;
    esac
}

# $1 is what is read, $2 where the circuits go.
run_certify() {
    is_told='' is_over='' is_extended='' span=$first_span
    store "$1" given && in=$file || return
    tie
    look_whether_shown
    find_sat_solver
    allow
    look_whether_long
    if certify; then
        found=$answer
        [ -z "$check" ] || check_circuits
        case $found:$line in
            *:invalid* | *:circuits*) is_told=yes && return ;;
            10:*) line=true ;;
            *) line=false ;;
        esac
        status=$found is_told=yes
        cat "$work/cert" >"$2" || line='write fault' status=5
    elif [ -z "$is_over" ]; then
        line=unknown status=12 is_told=yes
        tell_unknown
    fi
}
tell_unknown() {
    if ! has depqbf; then
        say "DepQBF, whose proofs are read, is not here (on Debian: apt-get install depqbf)"
    elif [ -n "$pending" ]; then
        say "no answer within $seconds seconds"
    else
        say "no way gave circuits that can be carried back to $(named IN); 'celdrinn simplify' and a solver may still give its truth value"
    fi
}
