#!/usr/bin/env bash
# Checks proofs of a SAT solver as logs of implied additions, and compares the time with the solver's own
# checker. CaDiCaL keeps its clauses (--plain --reduce=0), so that both do the same work. Deletions are
# left out of the log, and OUT is IN with the added clauses.
#
# Usage: bench/proofs.sh [VARIABLES ..]; wants cadical
set -eu
# shellcheck source=common.sh
. "$(dirname "$0")/common.sh"
take_words "" "$@"
want cadical
[ ${#names[@]} -gt 0 ] || names=(200 225 250)

seconds() {
    python3 - "$@" <<'PYTHON'
import subprocess, sys, time

start = time.time()
subprocess.run(sys.argv[1:], stdout=subprocess.DEVNULL, stderr=subprocess.DEVNULL)
print(f"{time.time() - start:.2f}")
PYTHON
}

for v in "${names[@]}"; do
    "$top/bench/sat_proof.py" "$v" "$work"
    plain=$(seconds cadical -q --plain --reduce=0 "$work/in")
    checked=$(seconds cadical -q --plain --reduce=0 --check --checkproof "$work/in")
    steps=$(wc -l <"$work/log")
    ours=$(seconds "$program" check "$work/bound" "$work/out" "$work/log")
    peak=$(/usr/bin/time -f %M "$program" check "$work/bound" "$work/out" "$work/log" 2>&1 >"$work/line" | tail -n 1)
    python3 - "$v" "$steps" "$plain" "$checked" "$ours" "$peak" "$(cat "$work/line")" <<'PYTHON'
import sys

v, steps, plain, checked, ours, peak, line = sys.argv[1:]
extra = float(checked) - float(plain)
rate = int(steps) / max(float(ours), 0.01)
print(f"{v} variables, {steps} steps: {ours} s ({rate:.0f} steps/s, {peak} KiB), cadical's check {extra:.2f} s, ratio {float(ours) / max(extra, 0.01):.2f}; {line}")
PYTHON
done
