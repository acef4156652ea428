#!/usr/bin/env bash
# Times `check` on logs of pivot deletions and drops over formulas of one long chain of clauses, from
# 50,000 to 400,000 steps, two deletions for each drop. The time should grow no worse than n log n.
# With --write it only writes the files in, out and log.
#
# Usage: bench/chains.sh | bench/chains.sh --write STEPS FOLDER
set -eu
# shellcheck source=common.sh
. "$(dirname "$0")/common.sh"
option_write=
take_words write "$@"

files() {
    python3 - "$@" <<'PYTHON'
import os, sys

work, steps = sys.argv[1], int(sys.argv[2])
drops = steps // 3
deletions = steps - drops
chain = deletions + 1
x = range(1, chain + 1)
u = range(chain + 1, chain + drops + 1)


def write(name, clauses):
    with open(os.path.join(work, name), "w") as out:
        out.write(f"p cnf {chain + drops} {len(clauses)}\n")
        out.write("e " + " ".join(map(str, x)) + " 0\na " + " ".join(map(str, u)) + " 0\n")
        out.writelines(" ".join(map(str, clause)) + " 0\n" for clause in clauses)


tied = [(i, chain + i) for i in range(1, drops + 1)]
# the last variable keeps a clause, so that no variable leaves the prefix
ends = [(-1, chain), (1, -chain)]
write("in", ends + tied + [(-i, i + 1) for i in range(1, chain - 1)])
with open(os.path.join(work, "log"), "w") as out:
    for i in range(chain - 2, 0, -1):
        out.write(f"d {i + 1} {-i} 0\n")
    for i in range(1, drops + 1):
        out.write(f"u {chain + i} {i} 0\n")
write("out", ends + [(i,) for i in range(1, drops + 1)])
PYTHON
}

if [ -n "$option_write" ]; then
    files "${names[1]}" "${names[0]}"
    exit
fi

for steps in 50000 100000 200000 300000 400000; do
    files "$work" "$steps"
    /usr/bin/time -f "$steps steps: %e s, %M KiB" "$program" check "$work/in" "$work/out" "$work/log"
done
