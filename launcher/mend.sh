# shellcheck shell=sh
# `celdrinn mend IN OUT`: what deviates from the form is written as it is read, and said. The program is asked whether it reads it; where there
# is doubt what is meant, it refuses the formula as it is.

run_mended() {
    # $1 is what is read, $2 where the formula goes
    unpacked "$1" >"$work/given" 2>/dev/null || { say "can't read '$name_IN'" && answer 'read fault' 4; }
    if mends "$name_IN" <"$work/given"; then
        cat "$work/head" "$work/body" >"$work/given"
    fi
    run simplify "$work/given" /dev/null //dev/null --budget=0
    # the words on what was mended, or on where there is doubt, stand for the program's
    cat "$work/notes" >&2
    case $status in
        0 | 2 | 10 | 20) cat "$work/given" >"$2" && line="mended $(cat "$work/count")" status=0 || { line='write fault' status=5; } ;;
        3) is_told=yes ;;
    esac
}
