#!/usr/bin/env python3
"""Makes a log of many additions that propagate far: what CaDiCaL learns of random formulas of three literals a clause, each over
variables of its own.

Usage: bench/learned.py FORMULAS VARIABLES STEPS FOLDER

It writes FOLDER/in, FOLDER/log and FOLDER/out (the formula with the added clauses). Of each formula at most a minute of clauses is taken,
and only those before the first one of fewer than two literals, so none of them is decided.
"""
import os
import random
import subprocess

from words import split


def formula(variables):
    return [[random.choice((-1, 1)) * x for x in random.sample(range(1, variables + 1), 3)] for _ in range(int(4.26 * variables))]


def text(clauses):
    return "".join(" ".join(map(str, clause)) + " 0\n" for clause in clauses)


def learned(variables, clauses, folder):
    cnf, proof = os.path.join(folder, "part.cnf"), os.path.join(folder, "part.drat")
    with open(cnf, "w") as out:
        out.write(f"p cnf {variables} {len(clauses)}\n{text(clauses)}")
    solver = ["cadical", "-q", "--plain", "--reduce=0", "--no-binary", "-t", "60", cnf, proof]
    subprocess.run(solver, stdout=subprocess.DEVNULL, check=False)
    with open(proof) as lines:
        for line in lines:
            numbers = [int(word) for word in line.split() if word != "d"]
            if line.startswith("d") or not numbers or numbers[-1] != 0:
                continue
            if len(numbers) < 3:
                return
            yield numbers[:-1]


def main():
    names, _ = split(__doc__, 4, 4)
    formulas, variables, steps, folder = *map(int, names[:3]), names[3]
    os.makedirs(folder, exist_ok=True)
    clauses, added = [], []
    for number in range(formulas):
        random.seed(1000 * variables + number)
        own, base = formula(variables), number * variables
        moved = lambda clause: [l + base if l > 0 else l - base for l in clause]
        clauses += map(moved, own)
        added += map(moved, learned(variables, own, folder))
        if len(added) >= steps:
            break
    del added[steps:]
    last = formulas * variables
    prefix = "e " + " ".join(map(str, range(1, last + 1))) + " 0\n"
    place = lambda name: os.path.join(folder, name)
    with open(place("in"), "w") as out:
        out.write(f"p cnf {last} {len(clauses)}\n{prefix}{text(clauses)}")
    with open(place("log"), "w") as out:
        out.write(text(added))
    with open(place("out"), "w") as out:
        out.write(f"p cnf {last} {len(clauses) + len(added)}\n{prefix}{text(clauses)}{text(added)}")


if __name__ == "__main__":
    main()
