#!/usr/bin/env python3
"""Makes a proof of a SAT solver into files for `check`: a random formula of three literals a clause that is mostly
unsatisfiable, and CaDiCaL's proof of it.

Usage: bench/sat_proof.py VARIABLES FOLDER; wants cadical

It writes FOLDER/in (DIMACS), FOLDER/bound (the same with its variables bound), FOLDER/log (the proof's additions; its deletions
are left out, and CaDiCaL keeps its clauses) and FOLDER/out (the formula with the added clauses).
"""
import os
import random
import subprocess

from words import split


def formula(variables):
    random.seed(variables)
    count = int(4.26 * variables)
    lines = []
    for _ in range(count):
        chosen = random.sample(range(1, variables + 1), 3)
        lines.append(" ".join(str(random.choice((-1, 1)) * x) for x in chosen) + " 0\n")
    return "".join(lines)


def bound(variables, clauses):
    prefix = "e " + " ".join(map(str, range(1, variables + 1))) + " 0\n"
    return f"p cnf {variables} {clauses.count(chr(10))}\n{prefix}{clauses}"


def main():
    names, _ = split(__doc__, 2, 2)
    variables, folder = int(names[0]), names[1]
    place = lambda name: os.path.join(folder, name)
    clauses = formula(variables)
    with open(place("in"), "w") as out:
        out.write(f"p cnf {variables} {clauses.count(chr(10))}\n{clauses}")
    solver = ["cadical", "-q", "--plain", "--reduce=0", "--no-binary", place("in"), place("proof")]
    subprocess.run(solver, stdout=subprocess.DEVNULL, check=False)
    with open(place("proof")) as proof:
        added = "".join(line for line in proof if not line.startswith("d"))
    for name, text in (("log", added), ("bound", bound(variables, clauses)), ("out", bound(variables, clauses + added))):
        with open(place(name), "w") as out:
            out.write(text)


if __name__ == "__main__":
    main()
