# shellcheck shell=sh
# What a long run does, said once a second, by the system's figures of its process: how far which file is read, what is written, or what comes
# behind reading, and how much memory there is. `simplify` says by itself what it looks for; `solve` too, but of its search for an answer.

# Sets `is_shown` where progress is wanted.
look_whether_shown() {
    is_shown=
    case ${CELDRINN_PROGRESS-} in
        0) ;;
        1) is_shown=yes ;;
        *) [ ! -t 2 ] || is_shown=yes ;;
    esac
}

# The program runs as a process.
begin_report() {
    (close_ours && exec >&2 && report "$1" 2>/dev/null) &
    reporter=$!
}
end_report() {
    kill "$reporter" 2>/dev/null
    [ ! -t 2 ] || printf '\r\033[K' >&2
}

# Says once a second what a process does, until it is gone.
report() {
    if [ -t 1 ]; then front=$(printf '\r\033[K') end=''; else front='' end='
'; fi
    first=$(date +%s)
    while sleep 1 >/dev/null; do
        kill -0 "$1" || return
        pid=$(cat "/proc/$1/task/$1/children") && pid=${pid%% *}
        place=$(place_of "${pid:-$1}") && printf '%s%s s: %s%s' "$front" $(($(date +%s) - first)) "$command, $place" "$end"
    done
}

# What comes when the last file is read.
behind_reading() {
    case $command in
        validate) echo "the circuits are tried" ;;
        rebuild | refute) echo "the circuits are carried back" ;;
        extract) echo "circuits are made" ;;
        miter) echo "clauses are made" ;;
        check | annotate) case $operands in *OUT*) echo "the end is compared" ;; *) echo "all is read" ;; esac ;;
        *) echo "all is read" ;;
    esac
}

# Sets `reads` and `read`, `writes` and `written` to the last file that a process has opened for reading, and for writing: its number and name. What
# it has opened itself would be closed in a program that it starts (the bit 02000000); what it was given is not.
find_files() {
    reads='' read='' writes='' written=''
    for link in /proc/"$1"/fd/*; do
        file=$(readlink "$link")
        [ ! -d "$file" ] || continue
        case $(sed -n 's/^flags:.*[2367].....\(.\)$/\1/p' "/proc/$1/fdinfo/${link##*/}") in
            0) reads=${link##*/} read=$file ;;
            1 | 2) writes=${link##*/} written=$file ;;
        esac
    done
}
offset() { sed -n 's/^pos:[^0-9]*//p' "/proc/$1/fdinfo/$2"; }

# How far a process has read a file that it has open by a number; fails where that is to its end.
share_of() {
    at=$(offset "$1" "$2")
    size=$(wc -c <"$3")
    [ "$at" -lt "$size" ] && echo "$((at * 100 / size)) % of ${3##*/} ($((at / 1000)) of $((size / 1000)) kB)"
}

# How far the file is read that a process reads, or the tool behind its pipe. Fails where it is read to its end.
share_read() {
    case $read in
        pipe:*) echo "a pipe is read" && return ;;
        "$work"/*) ;;
        *)
            if [ -p "$read" ]; then echo "${read##*/} is read"; else share_of "$1" "$reads" "$read"; fi
            return
            ;;
    esac
    # our own pipe, into which a tool writes as long as it is there
    for process in $readers; do
        [ "$(readlink "/proc/$process/fd/1")" = "$read" ] || continue
        file=$(readlink "/proc/$process/fd/0")
        if [ -f "$file" ]; then share_of "$process" 0 "$file"; else echo "a pipe is read"; fi
        return
    done
    return 1
}

# What a process does. Fails where it says so by itself.
place_of() {
    find_files "$1"
    memory="$(sed -n 's/^VmRSS:[^0-9]*\([0-9]*\).*/\1/p' "/proc/$1/status") kB of memory"
    if [ "$command" = solve ]; then
        # while it searches, OUT is whole and not closed yet
        [ -n "$writes" ] && echo "an answer is searched for, $memory"
    elif [ -n "$reads" ] && share_read "$1"; then
        :
    elif [ -n "$writes" ] && [ "$command" != annotate ]; then
        echo "$(($(offset "$1" "$writes") / 1000)) kB of ${written##*/} are written, $memory"
    elif [ "$read" = "$(readlink -f "$last_read")" ]; then
        echo "$(behind_reading), $memory"
    else
        echo "${read##*/} is read, $memory"
    fi
}
