#!/bin/sh
# Prints values for the outermost existentials of a formula under which it stays true. The formula is simplified, DepQBF says
# such values for what is left, and `rebuild` carries them back: what the other circuits say doesn't matter, so they are 0.
# With --check, DepQBF is asked whether the formula is true with these values as unit clauses.
# Ends with 10 for true, 20 for false, 0 for no answer.
# Usage: examples/first-moves.sh [--check] [IN [OPTION-OF-SIMPLIFY ..]]
set -u
here=$(cd "$(dirname "$0")" && pwd)
. "$here/common.sh"
check=
[ "${1:-}" != --check ] || { check=yes && shift; }
in=${1:-$here/random.qdimacs}
take "$in"
[ $# -eq 0 ] || shift
[ $# -gt 0 ] || set -- --grow=16

# The existentials of a formula that are bound in its prefix behind a universal, one a line.
inner_existentials() {
    awk '
        { gsub(/\r/, " ") }
        /^[ \t]*c/ { next }
        { for (i = 1; i <= NF; i++) {
            if (heading > 0) heading--
            else if ($i == "p") heading = 3
            else if ($i == "e" || $i == "a") set = $i
            else if (set == "") exit
            else if ($i == 0) set = ""
            else if (set == "a") behind = 1
            else if (behind) print $i
        } }' "$1"
}

# The formula with further clauses.
with_clauses() {
    awk -v more="$(wc -l <"$2")" '!seen && $1 == "p" { seen = 1; $4 += more } { print }' "$1"
    cat "$2"
}

line=$("$celdrinn" simplify "$file" "$work/out" "$work/log" "$@")
status=$?
echo "simplify: $line"
: >"$work/values"
case $status in
    10) ;;
    20) echo "$in is false" && exit 20 ;;
    0 | 2)
        has depqbf || skip DepQBF depqbf
        depqbf --qdo "$work/out" >"$work/answer"
        case $? in
            10) grep '^V' "$work/answer" >"$work/values" || true ;;
            20) echo "$in is false (by depqbf)" && exit 20 ;;
            *) echo "depqbf gave no answer" && exit 0 ;;
        esac
        ;;
    *) exit "$status" ;;
esac

constants "$work/values" "$work/out" >"$work/skolem"
line=$("$celdrinn" rebuild "$file" "$work/out" "$work/log" "$work/skolem" "$work/cert") || { echo "rebuild: $line"; exit 1; }
echo "rebuild: $line"

# What no universal stands before has a constant as its circuit.
inner_existentials "$file" >"$work/inner"
outputs_of "$work/cert" >"$work/outputs"
awk 'FILENAME == ARGV[1] { inner[$1] = 1; next }
    !($1 in inner) { print ($2 == 1 ? "V " : "V -") $1 " 0" }' "$work/inner" "$work/outputs" >"$work/moves"
echo "$in is true"
cat "$work/moves"

if [ -n "$check" ]; then
    has depqbf || skip DepQBF depqbf
    sed 's/^V //' "$work/moves" >"$work/units"
    with_clauses "$file" "$work/units" >"$work/set"
    { depqbf "$work/set" >"$work/again"; } 2>/dev/null
    case $? in
        10) echo "check: true with these values" ;;
        20) echo "check: false with these values" && exit 1 ;;
        *) echo "check: depqbf gave no answer" && exit 0 ;;
    esac
fi
exit 10
