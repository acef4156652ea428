#!/bin/sh
# Makes the formula to which a log leads, as far as it was written: for a run of `simplify` that was stopped before it wrote OUT.
# Where the log breaks off inside a step, its whole steps are written to WHOLE, which `check` takes in its place; WHOLE may be LOG itself.
# Usage: examples/out-from-log.sh IN LOG OUT WHOLE
set -u
here=$(cd "$(dirname "$0")" && pwd)
. "$here/common.sh"
[ $# -eq 4 ] || { echo "usage: $0 IN LOG OUT WHOLE" >&2 && exit 64; }
keep_apart "$1" "$3"
keep_apart "$1" "$4"
keep_apart "$2" "$3"
keep_apart "$3" "$4"
take "$1" && in=$file
take "$2" && log=$file
name_to "$3" && out=$to
name_to "$4" && whole=$to

"$celdrinn" apply "$in" "$log" "$work/out" >"$work/line"
status=$?
line=$(cat "$work/line")
[ $status -eq 0 ] || { echo "$line" && exit $status; }
case $line in
    *broken*)
        ! has_hints "$log" || { cat "$work/out" >"$out" && echo "$line; a log with hints is not cut" && exit 1; }
        steps=${line#applied }
        awk -v steps="${steps%% *}" '
            /^[ \t\r]*c/ { next }
            { gsub(/\r/, " "); for (i = 1; i <= NF && steps > 0; i++) if ($i ~ /^0+$/) { print $i; steps-- } else printf "%s ", $i }' "$log" >"$work/whole"
        ;;
    *) cat "$log" >"$work/whole" ;;
esac
cat "$work/out" >"$out" && cat "$work/whole" >"$whole" || exit 5
# whoever made OUT, check says whether it is right
"$celdrinn" check "$in" "$out" "$whole"
