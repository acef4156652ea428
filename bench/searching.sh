#!/usr/bin/env bash
# The searches of `solve` and `validate` beside C++ programs of the same searches (search.cpp, blocks.cpp): processor seconds and peaks.
#
# Usage: bench/searching.sh [--budget=N] [solve | validate]; wants g++
#
# Of `solve` the time of `simplify` on the same formula is taken off; the other program is timed after reading.
set -eu
# shellcheck source=common.sh
. "$(dirname "$0")/common.sh"
option_budget=3000000
take_words budget "$@"
want g++
here=$top/bench
budget=$option_budget
mkdir -p "$here/out"
for other in search blocks; do
    [ "$here/out/$other" -nt "$here/$other.cpp" ] || g++ -std=c++17 -O2 -o "$here/out/$other" "$here/$other.cpp"
done

# seconds and KiB of a run, in $work/time
timed() {
    /usr/bin/time -q -f '%U %M' -o "$work/time" "$@" >"$work/line" || true
}

solved() {
    name=$1
    timed "$program" simplify "$work/in" "$work/out" "$work/log"
    before=$(cut -d' ' -f1 "$work/time")
    found=$("$here/out/search" "$work/out" "$budget")
    timed "$program" solve "$work/in" "$work/out" "$work/log" "$work/cert" --budget="$budget"
    after=$(cut -d' ' -f1 "$work/time")
    echo "$name $(head -n 1 "$work/out" | cut -d' ' -f3,4) $found $before $after $(cut -d' ' -f2 "$work/time") $(head -n 1 "$work/line")" |
        awk '{ t = $8 - $7; n = $5; printf "| %s | %d | %d | %s | %d | %.2f s | %.2f s | %.0f | %.0f | %.1f MiB |\n", $1, $2, $3, $10, n, t, $6, (t > 0 ? n / t : 0), ($6 > 0 ? n / $6 : 0), $9 / 1024 }'
}

# N copies of inputs, with a budget of N branches
copied() {
    python3 "$here/certificates.py" copies "$1" "$work/in" "$work/cert"
    found=$("$here/out/blocks" "$work/in" "$work/cert" "$1")
    timed "$program" validate "$work/in" "$work/cert" --budget="$1"
    echo "$1 $found $(cat "$work/time") $(cat "$work/line")" |
        awk '{ printf "| %d copies | 0 | %s | %d | %d | %.2f s | | %.2f s | | %.1f MiB |\n", $1, $8, $3, $4, $6, $5, $7 / 1024 }'
}

validated() {
    python3 "$here/certificates.py" "$1" "$2" "$3" "$work/in" "$work/cert"
    found=$("$here/out/blocks" "$work/in" "$work/cert")
    timed "$program" validate "$work/in" "$work/cert"
    echo "$1 $2 $3 $found $(cat "$work/time") $(cat "$work/line")" |
        awk '{ printf "| %d of %d | %d | %s | %d | %d | %.2f s | %.1f us | %.2f s | %.1f us | %.1f MiB |\n", $1, $2, $3, $10, $5, $6, $8, 1e6 * $8 / (2 * $5 + 1), $7, 1e6 * $7 / (2 * $5 + 1), $9 / 1024 }'
}

if [ "${names[0]:-solve}" = solve ]; then
    echo "| Formula | Variables left | Clauses left | Answer | Decisions | \`solve\` | C++ | Decisions a second | C++ | Peak |"
    echo "|---|---|---|---|---|---|---|---|---|---|"
    for pair in "23 150" "5 150" "11 150" "24 200" "25 200"; do
        # shellcheck disable=SC2086
        set -- $pair
        rm -f "$work/in"
        "$program" gen "$1" "$2" "$work/in" >"$work/line"
        solved "gen-$1-$2"
    done
    for pair in "adder 20" "game 4" "parity 22"; do
        # shellcheck disable=SC2086
        set -- $pair
        python3 "$here/families.py" "$1" "$2" "$work/in"
        solved "$1-$2"
    done
else
    echo "| Inputs that decide, of all | Gates | Answer | Branches | Passes | \`validate\` | a node | C++ | a node | Peak |"
    echo "|---|---|---|---|---|---|---|---|---|---|"
    validated 20 20 100000
    validated 12 12 1000000
    validated 16 1000 10000
    copied 8000
    copied 16000
    copied 32000
fi
