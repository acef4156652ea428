#!/usr/bin/env python3
"""Memory where few variables have great numbers.

Usage: bench/sparse.py

First a formula of 40 variables (8 universal) and 368 clauses, which no rule changes, under the greatest numbers up to N: a line for each N, with the peaks of
resident memory of `simplify` and of `check`, and what that is in bytes for each number up to N.

Then formulas of two clauses and two variables, 1 and N, through each command of the program that reads one: a true one, a false one in which N is universal, and
one in which it is existential; and a formula of 56 clauses of which `simplify` expands a universal variable. A line for each run has the peak of resident memory,
the time and what it says. N is 2^19 - 1, 2^19, 2^20, and the greatest there is. (There `miter` has no numbers left for variables of its own, and
says `circuits too large`.) MB are 1,000,000 bytes. Wants GNU time.
"""
import os
import random
import subprocess
import tempfile

from words import CELDRINN, split

NUMBERS = (1 << 20, 1 << 22, 16_777_215)
ENDS = (524_287, 524_288, 1 << 20, 16_777_215)

# The commands, in an order in which each finds its files. `none` has the circuits of a formula without variables.
TRUE = (
    "simplify in out log",
    "check in out log",
    "solve in left steps model",
    "rebuild in out log none cert",
    "validate in cert",
    "miter in cert cnf",
    "annotate in out log hinted",
    "check in out hinted",
    "apply in log left",
    "extract in trace cert",
)
FALSE = (
    "simplify in out log",
    "check in out log",
    "solve in left steps model",
    "refute in out log none cert",
    "miter in cert cnf --herbrand",
    "disprove in log",
    "disprove in log cert",
    "annotate in out log hinted",
    "check in out hinted",
    "annotate in log hinted",
    "disprove in hinted",
    "apply in log left",
    "extract in trace cert",
)
EXPANDED = ("simplify in out log", "check in out log")


def formula(greatest):
    """Five literals a clause, three existential and two universal."""
    draw = random.Random(5)
    shift = greatest - 40
    universals, existentials = range(1, 9), range(9, 41)
    lines = [f"p cnf {greatest} 368"]
    for letter, row in (("a", universals), ("e", existentials)):
        lines.append(f"{letter} {' '.join(str(v + shift) for v in row)} 0")
    for _ in range(368):
        picked = draw.sample(existentials, 3) + draw.sample(universals, 2)
        lines.append(" ".join(str((v + shift) * draw.choice((1, -1))) for v in picked) + " 0")
    return "\n".join(lines) + "\n"


def small(outer, inner, n):
    """Two clauses by which 1 and n are the same."""
    return f"p cnf {n} 2\n{outer} 1 0\n{inner} {n} 0\n1 -{n} 0\n-1 {n} 0\n"


def opposed(n):
    """Two clauses that no value of n satisfies where 1 is false."""
    return f"p cnf {n} 2\na 1 0\ne {n} 0\n1 {n} 0\n1 -{n} 0\n"


def expanded(n):
    """Fourteen variables below n. One is universal, and its expansion brings n in."""
    draw = random.Random(18)
    rows = [draw.sample(range(1, 13), 3) for _ in range(50)]
    rows += [draw.sample(range(1, 13), 2) + draw.choice(([13, 14], [14])) for _ in range(6)]
    shift = n - 15
    lines = [f"p cnf {n} {len(rows)}"]
    for letter, row in (("e", range(1, 13)), ("a", [13]), ("e", [14])):
        lines.append(f"{letter} {' '.join(str(v + shift) for v in row)} 0")
    for row in rows:
        lines.append(" ".join(str((v + shift) * draw.choice((1, -1))) for v in row) + " 0")
    return "\n".join(lines) + "\n"


def trace(verdict, n):
    """A resolution proof: two cubes, or the clauses, without n, and their resolvent."""
    sign = "" if verdict == "SAT" else "-"
    other = "-" if verdict == "SAT" else ""
    return f"p qrp {n} 5\n1 1 {sign}{n} 0 0\n2 -1 {other}{n} 0 0\n3 1 0 1 0\n4 -1 0 2 0\n5 0 3 4 0\nr {verdict}\n"


def resolved(n):
    """The resolution proof of the latter: one resolvent, and 1 is reduced."""
    return f"p qrp {n} 4\n1 1 {n} 0 0\n2 1 -{n} 0 0\n3 1 0 1 2 0\n4 0 3 0\nr UNSAT\n"


def write(name, text):
    with open(name, "w", encoding="ascii") as out:
        out.write(text)


def peak(*words):
    """Peak of resident memory of a command in bytes, its seconds, and its line."""
    run = subprocess.run(["/usr/bin/time", "-q", "-o", "taken", "-f", "%M %e", CELDRINN, *words], capture_output=True, text=True)
    with open("taken", encoding="ascii") as taken:
        kib, seconds = taken.read().split()
    return int(kib) * 1024, float(seconds), run.stdout.strip()


def forty(greatest):
    """The peaks of `simplify` and `check` on 40 variables."""
    write("in", formula(greatest))
    cells = []
    for command in ("simplify in out log", "check in out log"):
        size, _, line = peak(*command.split())
        cells.append(f"{command.split()[0]} {size / 1e6:.0f} MB, {size / greatest:.0f} bytes a number ({line})")
    print(f"{greatest}: {'; '.join(cells)}", flush=True)


def play(n, name, commands):
    """A formula through some commands."""
    for command in commands:
        size, seconds, line = peak(*command.split())
        print(f"{n} {name}: {command}: {size / 1e6:.0f} MB, {seconds:.2f} s ({line})", flush=True)


def main():
    split(__doc__, 0, 0)
    os.environ["CELDRINN_PROGRESS"] = "0"
    with tempfile.TemporaryDirectory() as folder:
        os.chdir(folder)
        for greatest in NUMBERS:
            forty(greatest)
        write("none", "aag 0 0 0 0 0\n")
        for n in ENDS:
            write("in", small("a", "e", n))
            write("trace", trace("SAT", n))
            play(n, "true", TRUE)
            write("in", small("e", "a", n))
            write("trace", trace("UNSAT", n))
            play(n, "false", FALSE)
            write("in", opposed(n))
            write("trace", resolved(n))
            play(n, "opposed", FALSE)
            write("in", expanded(n))
            play(n, "expanded", EXPANDED)


if __name__ == "__main__":
    main()
