#!/usr/bin/env bash
# What hints cost and what they spare: for each log the time of `check` on it, of `annotate`, and of `check` on what `annotate`
# wrote, the bytes of both logs, and the most memory that `annotate` held. The logs are proofs of a SAT solver (bench/sat_proof.py) and those that
# `simplify` writes.
#
# Usage: bench/hints.sh [--runs=N] [proof:VARIABLES | FAMILY:SIZE] ..
#
# FAMILY is one of bench/families.py. By default: three proofs, and three families, one of them at about a million steps. Times
# are processor seconds, the least of N runs (3 if not said). Wants cadical for proofs.
set -eu
# shellcheck source=common.sh
. "$(dirname "$0")/common.sh"
option_runs=3
take_words runs "$@"
set -- "${names[@]}"
[ $# -gt 0 ] || set -- proof:200 proof:210 proof:225 sat:500000 gates:222000 adder:1600

# Processor seconds of a call, the least of some; its line goes to $work/line.
least() {
    for _ in $(seq "$option_runs"); do
        /usr/bin/time -q -f '%U %S %M' -o "$work/taken" "$program" "$@" >"$work/line" 2>/dev/null || true
        tail -n 1 "$work/taken" | awk '{ printf "%.2f\n", $1 + $2 }'
        tail -n 1 "$work/taken" | awk '{ print $3 }' >"$work/peak"
    done | sort -n | head -n 1
}

echo "| Log | Steps | \`check\` | \`annotate\` | \`check\`, hints | Bytes | Bytes, hints | KiB, \`annotate\` | Lines |"
echo "|---|---|---|---|---|---|---|---|---|"
for log; do
    family=${log%:*}
    size=${log#*:}
    if [ "$family" = proof ]; then
        "$top/bench/sat_proof.py" "$size" "$work"
    else
        "$top/bench/families.py" "$family" "$size" "$work/bound"
        "$program" simplify "$work/bound" "$work/out" "$work/log" >/dev/null || true
    fi
    files=("$work/bound" "$work/out")
    plain=$(least check "${files[@]}" "$work/log")
    said=$(cat "$work/line")
    annotated=$(least annotate "${files[@]}" "$work/log" "$work/hinted")
    said="$said, $(cat "$work/line")"
    peak=$(cat "$work/peak")
    hinted=$(least check "${files[@]}" "$work/hinted")
    said="$said, $(cat "$work/line")"
    echo "| $family $size | $(wc -l <"$work/log") | $plain s | $annotated s | $hinted s | $(wc -c <"$work/log") | $(wc -c <"$work/hinted") | $peak | $said |"
done
