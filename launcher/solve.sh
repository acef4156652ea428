# shellcheck shell=sh
# `celdrinn solve IN OUT LOG CERT` with --grow or --expand: the program's `solve` has the default bounds. So `simplify` comes first, with these; what it
# leaves is solved, and `rebuild` carries the circuits back. Each of these calls is proved.

# One call of the program, in the time that is left.
step() {
    if ! allow; then
        : >"$work/line"
        line=unknown status=12
        return 1
    fi
    command=$1
    run "$@"
    command=solve
}

# $1 is what is read, $2 to $4 where the formula, the log and the circuits go.
run_solved() {
    store "$1" given && in=$file || return
    budget='' bounds=''
    for word in $passed; do
        case $word in --budget=*) budget=$word ;; *) bounds="$bounds $word" ;; esac
    done
    # shellcheck disable=SC2086
    step simplify "$in" "$work/near" "$work/near.log" $bounds || return
    case $status in 0 | 10 | 20) ;; *) return ;; esac
    cat "$work/near" >"$2" && cat "$work/near.log" >"$3" || { line='write fault' status=5 && return; }
    case $status in
        0) step solve "$work/near" /dev/null //dev/null "$work/near.aag" $budget || return ;;
        10) echo 'aag 0 0 0 0 0' >"$work/near.aag" ;;
    esac
    case $status in
        10)
            last_read=$work/near.aag
            step rebuild "$in" "$work/near" "$work/near.log" "$work/near.aag" "$work/cert" || return
            [ "$status" -eq 0 ] || return
            cat "$work/cert" >"$4" || { line='write fault' status=5 && return; }
            line="true ${line#rebuilt }" status=10
            ;;
        20) line=false ;;
    esac
}
