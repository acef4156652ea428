#!/bin/sh
# Lets ABC make a formula from a circuit (circuit-to-qdimacs.sh says which), simplifies it and checks the log. ABC's own answer
# is printed beside it, and where DepQBF is there too, its answers before and after.
# Usage: examples/simplify-abc-2qbf.sh [BLIF [PARAMETERS]]
set -u
here=$(cd "$(dirname "$0")" && pwd)
. "$here/common.sh"
find_abc
take "${1:-$here/multiplexer.blif}" && circuit=$file
parameters=${2:-2}

formula=$work/formula.qdimacs
"$here/circuit-to-qdimacs.sh" "$circuit" "$parameters" >"$formula" || exit 1
cp "$circuit" "$work/circuit.blif"
echo "abc: $("$abc" -c "read_blif $work/circuit.blif; strash; qbf -P $parameters" | grep -E '^(Parameters|Implementation)' | head -n 1)"

echo "made: $(grep '^p' "$formula")"
line=$("$celdrinn" simplify "$formula" "$work/out" "$work/log" --grow=16)
case $? in
    0 | 2 | 10 | 20) echo "simplify: $line, $(head -n 1 "$work/out")" ;;
    *) echo "simplify: $line" && exit 1 ;;
esac
checked=$("$celdrinn" check "$formula" "$work/out" "$work/log") || { echo "check: $checked" && exit 1; }
echo "check: $checked"
if has depqbf; then
    echo "depqbf: $(depqbf "$formula") before, $(depqbf "$work/out") after"
fi
