#!/bin/sh
# Checks one long log by several processes at once, which GNU parallel starts on this machine or on others. Each makes all steps, and judges
# every so many blocks of 1,000; all together say what one check says. So the files are neither cut nor read twice.
# Says `verified N`, or the refusal in the least line, and ends with 0 or 1; 12 where a part has not ended.
# Two files are a formula and a proof that it is false: then it is a `disprove` in parts, says `false N`, and ends with 20. -b reads a binary proof.
# With -f the first part that is refused ends the others: the log is wrong then, but another part might have been refused in an earlier line.
# With -s the files are copied to each host once, and the program is there by the name in CELDRINN.
# With -w HINTED the parts write the log with hints: each the lines of its own blocks. These are joined as HINTED, and one check of it decides.
# Usage: examples/many-machines/check-parallel.sh [-n PARTS] [-j JOBS] [-s HOST,HOST..] [-f] [-w HINTED] [IN OUT LOG] or [-b] IN PROOF
set -u
here=$(cd "$(dirname "$0")/.." && pwd)
. "$here/common.sh"
usage() { echo "usage: $0 [-n PARTS] [-j JOBS] [-s HOST,HOST..] [-f] [-w HINTED] [IN OUT LOG] or [-b] IN PROOF" >&2 && exit 64; }
jobs=$(nproc 2>/dev/null || echo 2)
parts='' hosts='' halt=never hinted='' binary=''
while getopts n:j:s:fw:b option; do
    case $option in
        n) parts=$OPTARG ;;
        j) jobs=$OPTARG ;;
        s) hosts=$OPTARG ;;
        f) halt=now,fail=1 ;;
        w) hinted=$OPTARG ;;
        b) binary=--binary ;;
        *) usage ;;
    esac
done
shift $((OPTIND - 1))
parts=${parts:-$jobs}
case $parts in '' | *[!0-9]* | 0*) usage ;; esac
case $#$hinted$binary in
    0) set -- "$here/parity.qdimacs" "$here/parity-out.qdimacs" "$here/parity.qrat" ;;
    2 | 2--binary) ;;
    *) if [ $# -ne 3 ] || [ -n "$binary" ]; then usage; fi ;;
esac
has parallel || skip "GNU parallel" parallel

# Plain names in one folder; what goes to other machines has to be a file there, and is no link.
put() {
    take "$2"
    case $file in /*) ;; *) file=$PWD/$file ;; esac
    if [ -z "$hosts" ]; then ln -s "$file" "$work/$1"; else ln -L "$file" "$work/$1" 2>/dev/null || cp "$file" "$work/$1"; fi || exit 5
}
put in "$1"
if [ $# -eq 2 ]; then
    put log "$2"
    files='in log' call="disprove in log $binary" command=disprove
else
    put out "$2"
    put log "$3"
    files='in out log' call='check in out log' command=''
fi
case $celdrinn in /*) ;; */*) celdrinn=$PWD/$celdrinn ;; esac
case $hinted in '' | /*) ;; *) hinted=$PWD/$hinted ;; esac
set -- --will-cite -q --tagstring "{}/$parts" -j "$jobs" --halt "$halt"
[ -z "$hosts" ] || set -- "$@" --sshlogin "$hosts" --workdir "celdrinn-${work##*.}" --cleanup
for file in $files; do
    [ -z "$hosts" ] || set -- "$@" --basefile "$file"
done
[ -z "$hosts" ] || [ -z "$hinted" ] || set -- "$@" --return '{}.part'
cd "$work" || exit 1
if [ -z "$hinted" ]; then
    # shellcheck disable=SC2086 # these are words
    seq "$parts" | parallel "$@" "$celdrinn" $call "--part={}/$parts" >lines
    # shellcheck disable=SC2086 # a word or none
    "$here/many-machines/join.sh" "$parts" $command <lines
    exit
fi
seq "$parts" | parallel "$@" "$celdrinn" annotate in out log '{}.part' "--part={}/$parts" >lines
"$here/many-machines/join.sh" "$parts" <lines || exit
# shellcheck disable=SC2046 # the names are numbers
"$here/many-machines/join-lines.sh" $(seq -f %g.part "$parts") >"$hinted" || exit 5
"$celdrinn" check in out "$hinted"
