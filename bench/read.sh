#!/usr/bin/env bash
# Makes a formula of 1,000,000 clauses and a log of 1,000,000 steps in a temporary folder, lets the
# built program read them, and reports bytes per second and peak memory.
#
# Usage: bench/read.sh
#
# The formula is read twice, as IN and as OUT of a check with an empty log, and the time includes the
# comparison of the two. The log adds a clause that follows and deletes it, again and again, so its time
# includes the checking of the steps. The peak is at least that of the measuring script, about 10 MiB.
set -eu
# shellcheck source=common.sh
. "$(dirname "$0")/common.sh"
take_words "" "$@"

python3 - "$work" <<'PYTHON'
import os, random, shutil, sys

work = sys.argv[1]
count = 1_000_000
variables = 300_000
random.seed(1)


def clause():
    return [random.choice((-1, 1)) * random.randint(2, variables) for _ in range(3)]


def text(literals):
    return " ".join(map(str, literals)) + " 0\n"


with open(os.path.join(work, "formula"), "w") as out:
    out.write(f"p cnf {variables} {count}\n")
    out.write("a " + text(range(2, variables, 10)) + "e " + text(range(3, variables, 10)))
    out.writelines(text(clause()) for _ in range(count))
with open(os.path.join(work, "unit"), "w") as out:
    out.write(f"p cnf {variables} 1\ne " + text(range(1, variables + 1)) + "1 0\n")
with open(os.path.join(work, "log"), "w") as out:
    for _ in range(count // 2):
        literals = text([1] + clause())
        out.write(literals + "d " + literals)
open(os.path.join(work, "empty"), "w").close()
for name in ("formula", "unit"):
    shutil.copy(os.path.join(work, name), os.path.join(work, name + "-again"))
PYTHON

# A process of its own, since a child's peak is at least that of the process that begins it.
python3 - "$work" "$program" <<'PYTHON'
import os, subprocess, sys, time


def measure(name, files):
    paths = [os.path.join(sys.argv[1], file) for file in files]
    begun = time.monotonic()
    process = subprocess.Popen([sys.argv[2], "check", *paths], stdout=subprocess.PIPE)
    said = process.stdout.read().decode().strip()
    _, _, usage = os.wait4(process.pid, 0)
    taken = time.monotonic() - begun
    size = sum(map(os.path.getsize, paths)) / 1e6
    peak = usage.ru_maxrss / 1024
    print(f"{name}: {size:.1f} MB read in {taken:.2f} s, {size / taken:.0f} MB/s, peak {peak:.0f} MiB; {said}")


measure("formula", ["formula", "formula-again", "empty"])
measure("log", ["unit", "unit-again", "log"])
PYTHON
