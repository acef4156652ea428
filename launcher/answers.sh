# shellcheck shell=sh
# Runs the program, and says what its answer means: the program's words speak of IN and OUT, and here stand the names of the files and the
# numbers that are wrong, in the form `NAME:LINE: ..` at which editors jump.

# Prints a line and ends with a status.
answer() {
    if ! printf '%s\n' "$1" 2>/dev/null; then
        say "writing to standard output failed"
        finish 5
    fi
    finish "$2"
}
finish() {
    [ -z "$work" ] || rm -rf "$work"
    exit "$1"
}

# A signal ends the program, and then the launcher as if it had none of this.
child='' beside='' lanes='' within='' words=''
stop() {
    trap - EXIT
    [ -z "$child" ] || kill -"$killer" "$child" 2>/dev/null
    [ -z "$beside" ] || kill -TERM "$beside" 2>/dev/null
    end_lanes
    [ -z "$child" ] || wait "$child" 2>/dev/null
    end_streams 2>/dev/null
    [ -z "$work" ] || rm -rf "$work"
    trap - "$1"
    kill -"$1" $$
}

# Ends what the launcher does twice beside itself, with all that was started there.
end_lanes() {
    for process in $lanes; do kill -TERM "$process" 2>/dev/null; done
    for process in $lanes; do wait "$process" 2>/dev/null; done
    lanes=
}

# The program ends with the launcher, however that ends, where the system can see to it.
tie() {
    tied=
    if setpriv --pdeathsig "$killer" true 2>/dev/null; then tied="setpriv --pdeathsig $killer"; fi
}

# Runs the program with the words of a command, and sets `line`, `status`, and `words`, a file with what it said, or nothing where that
# went to a terminal.
run() {
    words=
    case ${CELDRINN_PROGRESS-} in
        0) words=$work/words ;;
        1) ;;
        *) [ -t 2 ] || words=$work/words ;;
    esac
    case $command:$stats in
        *:yes) words=$work/words is_shown= ;;
        simplify:* | gen:* | demo:* | mend:*) is_shown= ;;
        *) look_whether_shown ;;
    esac
    case $command in solve) is_quiet= ;; *) is_quiet=$is_shown ;; esac
    [ -z "$is_quiet" ] || words=$work/words
    # A limit on the size of files makes a write fail, and doesn't kill the program.
    trap '' XFSZ 2>/dev/null
    # Large pages, where the system has them: look-ups all over a large formula wait less for memory.
    GLIBC_TUNABLES=${GLIBC_TUNABLES:-glibc.malloc.hugetlb=1}
    export GLIBC_TUNABLES
    tie
    spare_number && eval "exec $number<&0"
    (
        eval "exec <&$number" && close_ours
        hear_bell
        [ -z "$words" ] || exec 2>"$words"
        [ -z "$is_quiet" ] || { CELDRINN_PROGRESS=0 && export CELDRINN_PROGRESS; }
        exec $tied $within "$program" "$@" >"$work/line"
    ) &
    child=$!
    [ -z "$stats" ] || begin_stats
    [ -z "$is_shown" ] || begin_report "$child"
    wait_for_program
    child=
    [ -z "$stats" ] || end_stats
    [ -z "$is_shown" ] || end_report
    line=$(cat "$work/line")
    [ -z "$line" ] || return 0
    case $status$within in 124?*) line=unknown status=12 && return ;; esac
    [ "$status" -gt 128 ] || starts "$program" || { say "$why_not" && finish 70; }
    say "the program ended with $status and no answer"
    finish "$status"
}

# Mends a formula from standard input, whose name is said: what it is then goes to files, and what is said to `notes`. Fails where there is doubt.
mends() {
    LC_ALL=C tr '\000\r\f\v\032' '\001 \002\002\003' |
        NAME=$1 LC_ALL=C awk -v body="$work/body" -v head="$work/head" -v count="$work/count" -f "$parts/mend.awk" 2>"$work/notes"
}

# The name that a role has in this call.
named() { eval "printf '%s' \"\${name_$1-}\""; }

# Says where and why: a name, perhaps a line, and words.
tell() {
    if [ $# -gt 2 ]; then printf '%s:%s: %s\n' "$1" "$2" "$3"; else printf '%s: %s\n' "$1" "$2"; fi >&2
}

# The program's words behind the place that they name, where they were kept.
kept_words() { [ -z "$words" ] || sed -n -e 's/^celdrinn: [^:]*, line [0-9]*: //p' "$words" | head -n 1; }

# What is wrong in a line of a file: its role, kind, line and cause.
explain_line() {
    name=$(named "$1")
    kept=$(kept_words)
    more=
    if [ -s "$work/$1.why" ]; then
        tell "$name" "this begins as binary AIGER does, but $(cat "$work/$1.why")"
        return
    fi
    text=$name
    [ ! -f "$work/$1.aag" ] || text=$work/$1.aag
    if [ -f "$text" ]; then
        more=$(unpacked "$text" 2>/dev/null | LC_ALL=C tr '\000\r' '\001 ' | LC_ALL=C awk -v kind="$2" -v at="$3" -v cause="$4" -v is_binary="${text#"$name"}" -f "$parts/explain.awk" 2>/dev/null)
        [ "$2" != formula ] || ! unpacked "$name" 2>/dev/null | mends "$name" || more="$more; 'celdrinn mend $name OUT' writes it anew"
    fi
    [ -z "$kept" ] || [ -z "$more" ] || kept="$kept: "
    [ -n "$kept$more" ] || kept="the first offence is here"
    if [ "$text" = "$name" ]; then
        tell "$name" "$3" "$kept$more"
    else
        tell "$name" "in line $3 of it as a text: $kept$more"
    fi
}

# What is wrong in a trace, by the cause.
trace_words() {
    case $1 in
        1) echo "this can't stand here in a trace" ;;
        2) echo "the trace ends before its verdict, so the solver was stopped" ;;
        3) echo "the number of this line is not above that of the line before" ;;
        4) echo "a variable of this line is not in $(named IN)" ;;
        5) echo "no empty line, or one that names a line which does not stand before it, and can't stand by itself" ;;
        6) echo "this line names no other, and can't stand by itself" ;;
        7) echo "the two lines that this one names have no literal of the opponent's to resolve on" ;;
        8) echo "a number or the trace is too large" ;;
        9) echo "no literal to resolve on stands before each variable whose signs differ, or the line has both signs of a variable from nowhere" ;;
        10) echo "a literal of the opponent's is lost" ;;
        11) echo "a literal is taken away before which not all of the opponent's stand" ;;
    esac
}
explain_trace() {
    found=
    name=$(named TRACE)
    [ ! -f "$name" ] || found=$(unpacked "$name" 2>/dev/null | LC_ALL=C tr '\000\r' '\001 ' | LC_ALL=C awk -v kind=trace -v at="$1" -v cause="$2" -f "$parts/explain.awk" 2>/dev/null)
    tell "$name" "$1" "$(trace_words "$2")${found:+: $found}"
}

# Says of an answer what it means.
explain() {
    # shellcheck disable=SC2086
    set -- $line
    case $line in
        input\ IN\ line*) explain_line IN formula "$4" "$6" ;;
        input\ OUT\ line*) explain_line OUT formula "$4" "$6" ;;
        refused\ line*)
            case $command in
                extract) explain_trace "$3" "$5" ;;
                *) explain_line "$(log_role)" log "$3" "$5" ;;
            esac
            ;;
        refused\ end\ cause\ 9) tell "$(named LOG)" "all its steps are valid, but they end with other quantifier blocks than $(named OUT) has" ;;
        refused\ end\ cause\ 10) tell "$(named LOG)" "all its steps are valid, but they end with other clauses than $(named OUT) has" ;;
        refused\ end\ cause\ 11) tell "$(named PROOF)" "no step of it makes the empty clause" ;;
        applied\ *\ broken*) tell "$(named LOG)" "$5" "the log breaks off here, and its $2 whole steps are made" ;;
        extended\ line*) explain_line "$(log_role)" log "$3" extended ;;
        circuits\ line*) explain_line "$(circuits_role)" circuits "$3" "$5" ;;
        circuits\ missing*) tell "$(named "$(circuits_role)")" "variable $3 of $(named "$(formula_role)") needs a circuit, and here is none" ;;
        circuits\ strange\ output*) tell "$(named "$(circuits_role)")" "here is a circuit for $4, which needs none in $(named "$(formula_role)")" ;;
        circuits\ strange\ input*) tell "$(named "$(circuits_role)")" "a circuit reads $4, which none of $(named "$(formula_role)") can depend on" ;;
        circuits\ *\ reads*) tell "$(named "$(circuits_role)")" "the circuit of $2 reads $4, which does not stand before $2 in $(named "$(formula_role)")" ;;
        circuits\ of\ a\ false*) tell "$(named OUT)" "the empty clause stands here, so it is false and has no Skolem functions ('celdrinn refute' is for false formulas)" ;;
        circuits\ of\ a\ true*) tell "$(named OUT)" "no clause stands here, so it is true and has no Herbrand functions ('celdrinn rebuild' is for true formulas)" ;;
        unknown)
            case $command in
                extract) tell "$(named TRACE)" "the solver did not know: the trace ends in 'r UNKNOWN'" ;;
                *) if [ -n "$seconds" ] && [ -z "$(cat "$work/line")" ]; then say "no answer within $seconds seconds" && return; fi
                    say "the budget was spent before there was an answer; a larger --budget may give one, and without it there is no bound" ;;
            esac
            ;;
        'circuits too large') say "what would be written is larger than is read" ;;
        'no memory')
            case $command in
                simplify | solve) say "memory ran out; a smaller --expand wants less, and --budget of simplify stops before" ;;
                *) say "memory ran out" ;;
            esac
            ;;
        'write fault' | 'read fault') explain_fault ;;
        usage) ;;
        *) [ -z "$words" ] || cat "$words" >&2 ;;
    esac
}
# The program says which file a write failed in, but not which one could not be opened.
explain_fault() {
    if [ -z "$words" ]; then return; fi
    if [ -s "$words" ]; then
        sed "s#$work/\([A-Z]*\)'#\1'#" "$words" >&2
    elif [ "$line" = 'write fault' ]; then
        for operand in $operands; do
            divide "$operand"
            [ "$kind" = '>' ] || continue
            name=$(named "$role")
            why=
            case $name in '' | - | none) continue ;; esac
            [ -e "$name" ] || why=$(LC_ALL=C dd if=/dev/null of="$name" count=0 2>&1 | sed -n 's/^dd: .*: //p')
            [ -z "$why" ] || say "can't write '$name': $why"
        done
    fi
}
# Which of the operands a line means, by those that the command takes.
log_role() { case $operands in *PROOF*) echo PROOF ;; *TRACE*) echo TRACE ;; *) echo LOG ;; esac; }
circuits_role() { case $operands in *SKOLEM*) echo SKOLEM ;; *HERBRAND*) echo HERBRAND ;; *) echo CERT ;; esac; }
formula_role() { case $(circuits_role) in CERT) echo IN ;; *) echo OUT ;; esac; }

is_told='' last_read=''

# Starts a command with its operands and names: `start OPERAND NAME ..`
start() {
    find_program
    work=$(mktemp -d) || finish 5
    trap 'stop INT' INT
    trap 'stop TERM' TERM
    trap 'stop HUP' HUP
    trap 'stop QUIT' QUIT
    trap 'rm -rf "$work"' EXIT
    case $quiet:$verbose in
        yes:*) CELDRINN_PROGRESS=0 && export CELDRINN_PROGRESS ;;
        :yes) CELDRINN_PROGRESS=1 && export CELDRINN_PROGRESS ;;
    esac
    [ -z "$stats" ] || { CELDRINN_PROGRESS=1 && export CELDRINN_PROGRESS; }
    for name; do
        case $name in /dev/fd/[3-9] | /proc/self/fd/[3-9]) given_numbers=$given_numbers${name##*/} ;; esac
    done
    count=$#
    while [ "$count" -gt 0 ]; do
        divide "$1"
        eval "name_$role=\$2"
        case $kind in
            '<')
                read_by "$2" "$role"
                last_read=$way
                ;;
            '>') write_by "$2" "$role" ;;
            *) way=$2 ;;
        esac
        shift 2
        count=$((count - 2))
        set -- "$@" "$way"
    done
    [ -z "$seconds" ] || { set_deadline "$seconds" && allow; }
    # shellcheck disable=SC2086
    case $command in
        mend) run_mended "$@" ;;
        certify) run_certify "$@" ;;
        simplify)
            if [ -n "$best" ]; then
                run_best "$@"
            else
                hang_bell
                run "$command" "$@" $passed
            fi
            take_bell_down
            ;;
        solve) if [ -n "$bounded" ]; then run_solved "$@"; else run "$command" "$@" $passed; fi ;;
        validate) if [ -n "$solver" ]; then run_decided "$@"; else run "$command" "$@" $passed; fi ;;
        *) run "$command" "$@" $passed $herbrand ;;
    esac
    end_streams
    case $status in 0 | 2 | 10 | 20) pack_empty || write_failed=yes ;; esac
    if [ -n "$read_failed" ]; then
        say "a packed file, or one from a pipe, could not be read to its end"
        answer 'read fault' 4
    elif [ -n "$write_failed" ] && [ "$status" -ne 3 ]; then
        say "a file could not be packed to its end"
        answer 'write fault' 5
    fi
    if [ -n "$stats" ]; then show_stats; fi
    case $stats:$status in yes:0 | yes:2 | yes:10 | yes:20) is_told=yes ;; esac
    [ -n "$is_told" ] || explain
    # a line that stands beside a formula on standard error is of no use to who wants none
    if [ -n "$is_moved" ] && [ -n "$quiet" ]; then finish "$status"; fi
    answer "$line" "$status"
}
