#!/bin/sh
# One formula of many: simplifies it and checks the log, and writes a line of a table to RESULTS: the formula's name, what `simplify` said, its
# status, the processor seconds, the peak in MiB, what `check` said, and the options. OUT and LOG stay there too. The line comes last, so what
# broke off is done again; what is done already, by the same program and options, is not, unless the formula is newer.
# CELDRINN names the program. Usage: one.sh RESULTS FORMULA [OPTION..]
set -u
results=$1 formula=$2
shift 2
name=${formula##*/}
name=${name%.qdimacs}
here=$results/$name
options=$(printf '%s ' "$@" | sed 's/ *$//')
[ ! "$here.tsv" -nt "$formula" ] || [ "$(cut -f 7 "$here.tsv")" != "$options" ] || exit 0
case $formula in -*) formula=./$formula ;; esac
rm -f "$here.tsv"
if [ -x /usr/bin/time ]; then
    /usr/bin/time -q -o "$here.time" -f '%U %S %M' "$CELDRINN" simplify "$formula" "$here.out" "$here.qrat" "$@" >"$here.line"
    status=$?
    cost=$(awk '{ printf "%.2f\t%.0f", $1 + $2, $3 / 1024 }' "$here.time")
else
    "$CELDRINN" simplify "$formula" "$here.out" "$here.qrat" "$@" >"$here.line"
    status=$?
    cost=$(printf '%s\t%s' - -)
fi
checked=-
# 10 and 20 are answers, and 2 is a spent budget: the files are whole
case $status in 0 | 2 | 10 | 20) checked=$("$CELDRINN" check "$formula" "$here.out" "$here.qrat") ;; esac
line=$(head -n 1 "$here.line")
rm -f "$here.line" "$here.time"
printf '%s\t%s\t%d\t%s\t%s\t%s\n' "$(printf '%s' "$name" | tr '\t' ' ')" "${line:--}" $status "$cost" "${checked:--}" "$options" >"$here.new" &&
    mv "$here.new" "$here.tsv"
