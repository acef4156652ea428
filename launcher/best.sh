# shellcheck shell=sh
# `celdrinn simplify IN OUT LOG --best[=SECONDS]`: the formula is simplified twice, beside each other: as the options say, and with expansions of
# up to 10,000, for so many seconds at most. The second is kept where it settles the formula or leaves one block at most, else the first.
# Each is a run of the program like any other, and its LOG leads from IN to its OUT.

# How many blocks a formula has that the program wrote.
blocks() { sed -n '2,${/^[ae]/!q;p}' "$1" | wc -l; }

run_best() {
    # $1 is what is read, $2 and $3 where the formula and the log go
    case $passed in *--expand=*) refuse "--best tries --expand=10000 beside the other options, so --expand can't be one of them" ;; esac
    store "$1" given && in=$file || return
    CELDRINN_PROGRESS=0
    export CELDRINN_PROGRESS
    tie
    # shellcheck disable=SC2086
    (close_ours && exec $tied timeout "$best" "$program" simplify "$in" "$work/far" "$work/far.log" $passed --expand=10000 </dev/null >"$work/far.line" 2>/dev/null) &
    far=$!
    beside=$far
    hang_bell
    # shellcheck disable=SC2086
    run simplify "$in" "$work/near" "$work/near.log" $passed
    kept=near
    case $status in
        0 | 2)
            wait "$far"
            far=$?
            case $far in
                10 | 20) kept=far ;;
                0 | 2) [ "$(blocks "$work/far")" -gt 1 ] || kept=far ;;
            esac
            ;;
        *) kill "$far" 2>/dev/null && wait "$far" ;;
    esac
    beside=
    case $kept in far) status=$far line=$(cat "$work/far.line") ;; esac
    case $status in
        0 | 2 | 10 | 20) cat "$work/$kept" >"$2" && cat "$work/$kept.log" >"$3" || { line='write fault' status=5; } ;;
    esac
}
