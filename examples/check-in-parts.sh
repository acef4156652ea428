#!/bin/sh
# Checks one long log in parts, beside each other. The formulas between the parts are made by `apply`, and need not be trusted: a part
# is verified only where its steps lead from the formula before it to the one behind it. So if all parts are verified, `check` would
# verify the parts one behind the other as one log from IN to OUT, and LOG, where it has the same words: theorems
# (`checked_parts_are_checked`, `same_words_are_checked_alike` of crates/q_parts). That it has them is compared here. `check --part` needs
# no formulas between parts: examples/many-machines.
# Says `verified N` and ends with 0 then; else it says what `check` says of the first part that is refused, and ends with 1.
# GNU parallel is called where it is there, and may use other machines, on which CELDRINN (by this name) has to be; else xargs is.
# Usage: examples/check-in-parts.sh [-p PARTS] [-j JOBS] [-s HOST,HOST..] [IN OUT LOG]
set -u
here=$(cd "$(dirname "$0")" && pwd)
. "$here/common.sh"
jobs=$(nproc 2>/dev/null || echo 2)
parts='' hosts=''
while getopts p:j:s: option; do
    case $option in
        p) parts=$OPTARG ;;
        j) jobs=$OPTARG ;;
        s) hosts=$OPTARG ;;
        *) exit 64 ;;
    esac
done
shift $((OPTIND - 1))
parts=${parts:-$jobs}
case $parts$jobs in *[!0-9]*) echo "usage: $0 [-p PARTS] [-j JOBS] [-s HOST,HOST..] [IN OUT LOG]" >&2 && exit 64 ;; esac
[ "$parts" -gt 0 ] || parts=1
take "${1:-$here/parity.qdimacs}" && in=$file
take "${2:-$here/parity-out.qdimacs}" && out=$file
take "${3:-$here/parity.qrat}" && log=$file
[ -z "$hosts" ] || has parallel || skip "GNU parallel" parallel

! has_hints "$log" || { echo "a log with hints is not cut" && exit 1; }
# Whole steps are counted, since a step may have several lines.
steps=$(awk '/^[ \t\r]*c/ { next } { for (i = 1; i <= NF; i++) if ($i ~ /^0+\r*$/) n++ } END { print n + 0 }' "$log")
cp "$in" "$work/0.qdimacs" && cp "$out" "$work/out.qdimacs" || exit 1

# Checks the parts, which come as lines of three names; what each says stands behind its number and a tab.
check_parts() {
    if has parallel; then
        set -- --will-cite --tagstring '{#}' -j "$jobs" --colsep ' '
        [ -z "$hosts" ] || set -- "$@" --sshlogin "$hosts" --workdir ... --cleanup --transferfile '{1}' --transferfile '{2}' --transferfile '{3}'
        parallel "$@" "$celdrinn" check '{1}' '{2}' '{3}'
    else
        # shellcheck disable=SC2016 # the inner shell has these words
        xargs -n 3 -P "$jobs" sh -c '"$0" check "$1" "$2" "$3" >"$3.line"' "$celdrinn"
        k=1
        while [ -f "$k.qrat" ]; do
            printf '%s\t%s\n' $k "$(cat "$k.qrat.line")"
            k=$((k + 1))
        done
    fi
}

# Cuts the log behind each so many steps: part K goes to K.qrat. Ends with 1 where the log breaks off inside a step.
cut_log() {
    awk -v every=$(((steps + parts - 1) / parts)) -v dir="$work" '
        BEGIN { part = 1; name = dir "/1.qrat"; printf "" >name }
        /^[ \t\r]*c/ { next }
        {
            gsub(/\r/, " ")
            for (i = 1; i <= NF; i++) {
                if (inside == 0 && made == every) { close(name); made = 0; name = dir "/" ++part ".qrat" }
                inside = $i !~ /^0+$/
                if (!inside) made++
                printf "%s%s", $i, (inside ? " " : "\n") >name
            }
        }
        END { exit inside }' "$log"
}
cut_log || { echo "refused: the log ends inside a step" && exit 1; }
count=0
while [ -f "$work/$((count + 1)).qrat" ]; do count=$((count + 1)); done

# The names of each part: the formula before it, the one behind it, the steps. The last part has to end in OUT.
make_parts() {
    k=1
    while [ $k -lt $count ]; do
        "$celdrinn" apply "$((k - 1)).qdimacs" "$k.qrat" "$k.qdimacs" >"$k.made" || { cp "$k.made" stopped && return; }
        echo "$((k - 1)).qdimacs $k.qdimacs $k.qrat"
        k=$((k + 1))
    done
    echo "$((count - 1)).qdimacs out.qdimacs $count.qrat"
}
# A part is checked as soon as it is there.
(cd "$work" && make_parts) | tee "$work/names" | (cd "$work" && check_parts >lines)

# What was checked are the steps of LOG: the words of the parts, one behind the other, are its words, but for zeros in front.
tab=$(printf '\t') cr=$(printf '\r')
# shellcheck disable=SC2020
words() { sed "/^[ $tab$cr]*c/d" | tr " $tab$cr" '\n\n\n' | sed '/^$/d; s/^\(-\{0,1\}\)0*\([0-9]\)/\1\2/'; }
k=1
while [ $k -le $count ]; do
    cat "$work/$k.qrat"
    k=$((k + 1))
done | words >"$work/joined"
words <"$log" | cmp -s - "$work/joined" || { echo "refused: the parts are not the log" && exit 1; }
[ ! -f "$work/stopped" ] || { echo "part $(wc -l <"$work/names" | awk '{ print $1 + 1 }'): $(cat "$work/stopped")" && exit 1; }
# Each part was checked from the formula behind the one before it, and the last one to OUT.
k=1
while [ $k -le $count ]; do
    behind=$k
    [ $k -lt $count ] || behind=out
    echo "$((k - 1)).qdimacs $behind.qdimacs $k.qrat"
    k=$((k + 1))
done | cmp -s - "$work/names" || { echo "refused: the parts are no chain" && exit 1; }

# All parts are verified, or the first that is not says why. The shell adds the numbers.
sum=0 k=1
while [ $k -le $count ]; do
    line=$(sed -n "s/^$k$tab//p" "$work/lines")
    case $line in
        'verified '*[!0-9]* | 'verified ') break ;;
        'verified '*) sum=$((sum + ${line#verified })) ;;
        *) break ;;
    esac
    k=$((k + 1))
done
if [ $k -gt $count ] && [ $count -gt 0 ]; then
    echo "verified $sum"
    exit
fi
echo "part $k: ${line:-it has said nothing}"
exit 1
