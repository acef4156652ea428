#!/bin/sh
# Joins what the parts of `check`, `annotate` or `disprove` say: lines of standard input, each of a part as in 2/8, a tab, and what it said. Where all N
# have said `verified M` (or all `annotated M`), the last line is `verified` (or `annotated`) with the sum, and the status 0; for parts of `disprove`
# it is `false` with the sum, and 20. Where some refuse it is the least refusal, and 1. What else a part says (of a file that is no formula, of a fault) is said as it is, with its status. Where a part says nothing, two
# things, or is one of another number of parts, it is `unknown`, and 12. The same line twice is one. Numbers are compared and added by the shell.
# Usage: join.sh N [disprove] <LINES
set -u
usage() { echo "usage: $0 N [disprove] <LINES" >&2 && exit 64; }
case $#:${2-} in 1: | 2:disprove) ;; *) usage ;; esac
parts=$1 command=${2-}
case $parts in '' | *[!0-9]* | 0* | ????????????*) usage ;; esac
tab=$(printf '\t')

# a number as the program writes it
is_number() {
    case $1 in 0) ;; '' | *[!0-9]* | 0* | ?????????????????*) return 1 ;; esac
}

# one of the N parts, by its number
is_part() {
    case $1 in */"$parts") ;; *) return 1 ;; esac
    part=${1%/*}
    is_number "$part" && [ "$part" -ge 1 ] && [ "$part" -le "$parts" ]
}

doubt() {
    echo "$1" >&2
    unknown=yes
}

# What a part said: a sum grows, or the least refusal is told. A refusal of a line comes before one of the end, and at one line the least cause counts.
# Blanks stand between its words, and it has no characters that the shell would expand.
take() {
    case $1 in
        *[!A-Za-z0-9\ ]*) other=${other:-$1} && return ;;
    esac
    # shellcheck disable=SC2086
    set -- $1
    case "$# $*" in
        "2 verified "* | "2 annotated "*)
            is_number "$2" || { other=${other:-$*} && return; }
            [ "${verb:-$1}" = "$1" ] || doubt "some parts say '$verb', and some '$1'"
            verb=$1 sum=$((sum + $2)) count=$((count + 1))
            ;;
        "5 refused line "*" cause "*)
            if ! is_number "$3" || ! is_number "$5"; then other=${other:-$*} && return; fi
            if [ -z "$line" ] || [ "$3" -lt "$line" ] || { [ "$3" -eq "$line" ] && [ "$5" -lt "$cause" ]; }; then line=$3 cause=$5; fi
            ;;
        "4 refused end cause "*)
            is_number "$4" || { other=${other:-$*} && return; }
            if [ -z "$end" ] || [ "$4" -lt "$end" ]; then end=$4; fi
            ;;
        *) other=${other:-$*} ;;
    esac
}

sum=0 count=0 verb='' line='' cause='' end='' other='' unknown=''
while IFS= read -r row || [ -n "$row" ]; do
    name=${row%%"$tab"*} said=${row#*"$tab"}
    if [ -z "$said" ] || [ "$said" = "$row" ]; then continue; fi
    is_part "$name" || { doubt "'$name' is none of $parts parts" && continue; }
    eval "before=\${said_$part-}"
    if [ -z "$before" ]; then
        eval "said_$part=\$said"
        take "$said"
    elif [ "$before" != "$said" ]; then
        doubt "part $part has said '$before' and '$said'"
    fi
done
part=1
while [ "$part" -le "$parts" ]; do
    eval "before=\${said_$part-}"
    [ -n "$before" ] || silent="${silent-}part $part of $parts has said nothing
"
    part=$((part + 1))
done

if [ -n "$unknown" ]; then
    echo unknown
    exit 12
fi
if [ -n "$line" ]; then
    echo "refused line $line cause $cause"
    exit 1
fi
if [ -n "$end" ]; then
    echo "refused end cause $end"
    exit 1
fi
if [ -n "$other" ]; then
    case $other in
        'input '*) status=3 ;;
        'read fault') status=4 ;;
        'write fault') status=5 ;;
        'no memory') status=6 ;;
        usage) status=64 ;;
        *) echo "a part says '$other'" >&2 && other=unknown status=12 ;;
    esac
    echo "$other"
    exit "$status"
fi
if [ -n "${silent-}" ]; then
    printf %s "$silent" >&2
    echo unknown
    exit 12
fi
[ "$count" -eq "$parts" ] || exit 12
if [ "$command/$verb" = disprove/verified ]; then
    echo "false $sum"
    exit 20
fi
echo "$verb $sum"
