#!/usr/bin/env bash
# Makes circuit files of 1,000,000 gates in a temporary folder, lets the built program read them, and reports bytes per
# second and peak memory.
#
# Usage: bench/circuits.sh [GATES]
#
# The files are read by `rebuild` with a formula of one existential variable and an empty log. The first three have no output,
# so the program stops once it has read them: gates in order, gates from the last to the first, and gates of which the last
# two depend on each other. The fourth has the last gate as its output, so all gates are copied and written again. The peak is
# at least that of the measuring script, about 10 MiB.
set -eu
# shellcheck source=common.sh
. "$(dirname "$0")/common.sh"
take_words "" "$@"

python3 - "$work" "${names[0]:-1000000}" <<'PYTHON'
import os, shutil, sys

work, count = sys.argv[1], int(sys.argv[2])
inputs = 10
last = inputs + count


def gate(number):
    before = 2 * (number - 1) + number % 2
    return f"{2 * number} {before} {2 * (number % inputs + 1)}\n" if number > inputs + 1 else f"{2 * number} 4 2\n"


def write(name, gates, outputs):
    with open(os.path.join(work, name), "w") as out:
        out.write(f"aag {last} {inputs} 0 {outputs} {count}\n")
        out.writelines(f"{2 * number}\n" for number in range(1, inputs + 1))
        out.write(f"{2 * last}\n" * outputs)
        out.writelines(gates)
        out.writelines(f"i{place} {place + 1}\n" for place in range(inputs))
        out.write(f"o0 {inputs + 1}\n" * outputs)


gates = [gate(number) for number in range(inputs + 1, last + 1)]
write("ordered", gates, 0)
write("reversed", reversed(gates), 0)
write("written", gates, 1)
gates[-2] = f"{2 * last - 2} {2 * last} 2\n"
write("cycle", gates, 0)
with open(os.path.join(work, "formula"), "w") as out:
    out.write(f"p cnf {inputs + 1} 1\na " + " ".join(map(str, range(1, inputs + 1))) + f" 0\ne {inputs + 1} 0\n1 {inputs + 1} 0\n")
shutil.copy(os.path.join(work, "formula"), os.path.join(work, "formula-again"))
open(os.path.join(work, "empty"), "w").close()
PYTHON

# A process of its own, since a child's peak is at least that of the process that begins it.
python3 - "$work" "$program" <<'PYTHON'
import os, subprocess, sys, time


def measure(name):
    paths = [os.path.join(sys.argv[1], file) for file in ("formula", "formula-again", "empty", name, "cert")]
    begun = time.monotonic()
    process = subprocess.Popen([sys.argv[2], "rebuild", *paths], stdout=subprocess.PIPE)
    said = process.stdout.read().decode().strip()
    _, _, usage = os.wait4(process.pid, 0)
    taken = time.monotonic() - begun
    worked = usage.ru_utime + usage.ru_stime
    size = os.path.getsize(paths[3])
    peak = usage.ru_maxrss * 1024
    print(
        f"{name}: {size / 1e6:.1f} MB in {taken:.2f} s ({worked:.2f} s of the processor), "
        f"{size / 1e6 / worked:.0f} MB/s, peak {peak / 2**20:.0f} MiB, {peak / size:.1f} times the file; {said}"
    )


for name in ("ordered", "reversed", "cycle", "written"):
    measure(name)
PYTHON
