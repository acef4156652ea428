#!/usr/bin/env python3
"""Large formulas: seconds and bytes a clause of `simplify` and `check`, beside MiniSat and CaDiCaL as preprocessors.

Usage: bench/scale.py [--seconds=N] [--out=TABLE.md] [FAMILY or FAMILY:CLAUSES ..]

FAMILY is one of sat, register and subsumed of bench/families.py, which have no universals; all three by default. Each has about 100,000, 1,000,000 and
5,000,000 clauses, or the number behind the colon. A run is stopped after N processor seconds (600). One run each.

Seconds are those of the processor, system calls included. Bytes a clause are the greatest resident memory by the number of clauses. Left is the number of
clauses that a tool leaves, where it says so. MiniSat (`minisat -pre -dimacs=..`) eliminates and subsumes; CaDiCaL (`cadical -P3 -c 0`) probes and vivifies
too. Who is not installed is left out. Writing a formula of 5,000,000 clauses takes some two gigabytes of memory.
"""
import os
import re
import resource
import shutil
import subprocess
import sys
import tempfile

from words import CELDRINN, HOME, split

CLAUSES = (100_000, 1_000_000, 5_000_000)

# Clauses for one of a family's sizes.
CLAUSES_OF_ONE = {"sat": 1, "register": 34, "subsumed": 1}


def run(words, seconds):
    """Processor seconds (None where stopped), the greatest resident memory in bytes."""

    def limit():
        resource.setrlimit(resource.RLIMIT_CPU, (seconds, seconds + 1))

    with open("said", "wb") as said:
        child = subprocess.Popen(words, stdout=said, stderr=subprocess.DEVNULL, preexec_fn=limit,
                                 env={**os.environ, "CELDRINN_PROGRESS": "0"})
        _, status, used = os.wait4(child.pid, 0)
    child.returncode = os.waitstatus_to_exitcode(status)
    return (used.ru_utime + used.ru_stime if child.returncode >= 0 else None), used.ru_maxrss * 1024


def without_quantifiers(path, cnf):
    with open(path, encoding="ascii") as formula, open(cnf, "w", encoding="ascii") as out:
        out.writelines(line for line in formula if line[0] not in "ae")


def clauses_of(path):
    """The number in the header of a formula; none where there is no such file."""
    try:
        with open(path, encoding="ascii") as file:
            for line in file:
                found = re.match(r"p cnf \d+ (\d+)", line)
                if found:
                    return int(found[1])
    except OSError:
        pass
    return None


def tools(program):
    """Name, words, and the file that the tool leaves, of each tool that is there."""
    yield "simplify", [program, "simplify", "in", "out", "log"], "out"
    yield "check", [program, "check", "in", "out", "log"], None
    if shutil.which("minisat"):
        yield "MiniSat", ["minisat", "-pre", "-verb=0", "-dimacs=left-m", "cnf"], "left-m"
    if shutil.which("cadical"):
        yield "CaDiCaL", ["cadical", "-q", "-P3", "-c", "0", "-o", "left-c", "cnf"], "left-c"


def measure(program, family, clauses, seconds):
    """The line of the table for one formula."""
    subprocess.run([sys.executable, f"{HOME}/bench/families.py", family, str(clauses // CLAUSES_OF_ONE[family]), "in"], check=True)
    without_quantifiers("in", "cnf")
    count = clauses_of("in")
    cells = [f"{family} {count:,}"]
    for _, words, leaves in tools(program):
        took, peak = run(words, seconds)
        left = clauses_of(leaves) if leaves and took is not None else None
        cells.append("stopped" if took is None else f"{took:.2f} s, {peak / count:.0f} bytes" + (f", {left:,} left" if left is not None else ""))
    for name in ("in", "cnf", "out", "log", "left-m", "left-c"):
        if os.path.exists(name):
            os.remove(name)
    return f"| {' | '.join(cells)} |\n"


def main():
    names, options = split(__doc__, seconds=600, out=f"{HOME}/bench/out/scale.md")
    names = names or list(CLAUSES_OF_ONE)
    if any(name.split(":")[0] not in CLAUSES_OF_ONE for name in names):
        sys.exit(__doc__)
    program, path = CELDRINN, os.path.realpath(options["out"])
    os.makedirs(os.path.dirname(path), exist_ok=True)
    columns = [name if name[0].isupper() else f"`{name}`" for name, _, _ in tools(program)]
    text = f"| Formula, clauses | {' | '.join(columns)} |\n|{'---|' * (len(columns) + 1)}\n"
    print(text, end="", flush=True)
    with tempfile.TemporaryDirectory() as folder:
        os.chdir(folder)
        for name in names:
            family, _, count = name.partition(":")
            for clauses in [int(count)] if count else CLAUSES:
                line = measure(program, family, clauses, options["seconds"])
                print(line, end="", flush=True)
                text += line
                with open(path, "w", encoding="utf-8") as out:
                    out.write(text)
        os.chdir(HOME)
    print(f"table: {path}")


if __name__ == "__main__":
    main()
