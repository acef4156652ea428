#!/bin/sh
# A stand-in for `celdrinn check IN OUT LOG --part=I/N` and `celdrinn disprove IN PROOF --part=I/N`, which plays what a part says of a log or a proof
# made of lines: a block has two of them, the part that judges a block refuses `wrong` in it, and each part refuses `bad`. A proof ends with
# the first `empty`, or it is refused, and `ones` in it wants --binary. `files` makes files for it.
set -u
if [ "$1" = files ]; then
    : >in
    : >out
    seq 11 >right
    { seq 5 && echo wrong && seq 3 && echo wrong && seq 3; } >'w r:o=n g'
    { seq 5 && echo bad && seq 3 && echo wrong; } >bad
    { seq 9 && echo empty && echo bad; } >proof
    { seq 5 && echo wrong && seq 3 && echo empty; } >'-p r=o o'
    { echo ones && echo empty; } >ones
    exit
fi
log=$4 binary=''
[ "$1" != disprove ] || log=$3
for word in "$@"; do
    case $word in --part=*) part=${word#--part=} ;; --binary) binary=yes ;; esac
done
awk -v part="${part%/*}" -v parts="${part#*/}" -v command="$1" -v binary="$binary" '
    { is_own = int((NR - 1) / 2) % parts + 1 == part }
    $1 == "bad" || $1 == "ones" && !binary || is_own && $1 == "wrong" {
        print "refused line " NR " cause " ($1 == "wrong" ? 4 : 1)
        is_refused = 1
        exit
    }
    is_own { count++ }
    command == "disprove" && $1 == "empty" { has_come = 1; exit }
    END {
        if (!is_refused && command == "disprove" && !has_come) { print "refused end cause 11"; is_refused = 1 }
        else if (!is_refused) print "verified " count + 0
        exit is_refused
    }' <"$log"
