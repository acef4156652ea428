#!/usr/bin/env bash
# Times `extract` on traces of any length, and reports bytes, megabytes a second, peak memory and the length of CERT. Equality of n bits (for
# each value of n existentials an opponent has one that falsifies it) has a trace of about 1.15 * 2^n kB that is needed as a whole: 13 gives
# 9 MB, 16 113 MB, 19 1.3 GB. DepQBF makes it, which takes longer than anything else here.
#
# Usage: bench/extracting.sh [--counted] [--beside=PROGRAM] [--traces=FOLDER] [N | FORMULA ..]; wants depqbf
#
# --beside names another program with the same words (IN TRACE CERT), which is timed too. With --counted instructions are counted by callgrind
# as well, which takes some fifty times as long. --traces names a folder where traces stay.
set -eu
# shellcheck source=common.sh
. "$(dirname "$0")/common.sh"
option_counted='' option_beside='' option_traces=$work
take_words "counted beside traces" "$@"
want depqbf
set -- "${names[@]}"
folder=$option_traces
mkdir -p "$folder"

equality() {
    awk -v n="$1" 'BEGIN {
        print "p cnf", 3 * n, 2 * n + 1
        for (i = 1; i <= 3 * n; i++) printf "%s%d%s", i % n == 1 || n == 1 ? (i > n && i <= 2 * n ? "a " : "e ") : "", i, i % n ? " " : " 0\n"
        for (i = 1; i <= n; i++) { print i, n + i, -(2 * n + i), 0; print -i, -(n + i), -(2 * n + i), 0 }
        for (i = 1; i <= n; i++) printf "%d ", 2 * n + i
        print 0
    }'
}

# The time, peak and line of one program; instructions in millions behind them, where they are wanted.
measure() {
    local name=$1 said
    shift
    said=$(/usr/bin/time -q -o "$work/time" -f "%U %S %M" "$@" || true)
    awk -v name="$name" -v said="$said" -v bytes="$(wc -c <"$trace")" -v cert="$(wc -c <"$work/cert")" '{
        time = $1 + $2
        printf "  %s: `%s`, %.2f s (%.2f of the system), %.0f MB/s, %.0f MiB, CERT %.1f MB\n", name, said, time, $2, bytes / 1e6 / (time > 0.01 ? time : 0.01), $3 / 1024, cert / 1e6
    }' "$work/time"
    [ -z "$option_counted" ] || valgrind --tool=callgrind --callgrind-out-file=/dev/null "$@" 2>&1 >"$work/said" |
        awk '/Collected/ { printf "    %.1f million instructions\n", $NF / 1e6 }'
}

[ $# -gt 0 ] || set -- 13 16
for given; do
    case $given in
        *[!0-9]*) formula=$given ;;
        *) formula=$folder/equality_$given && equality "$given" >"$formula" ;;
    esac
    trace=$folder/$(basename "$formula").qrp
    [ -s "$trace" ] || depqbf --trace=qrp --dep-man=simple --traditional-qcdcl --no-qbce-dynamic "$formula" >"$trace" || true
    echo "$(basename "$formula"): $(wc -c <"$trace") bytes, $(grep -c '^[0-9]' "$trace") lines"
    measure extract "$program" extract "$formula" "$trace" "$work/cert"
    [ -z "$option_beside" ] || measure "$(basename "$option_beside")" "$option_beside" "$formula" "$trace" "$work/cert"
done
