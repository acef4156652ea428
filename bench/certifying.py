#!/usr/bin/env python3
"""Random small formulas of all shapes: what `celdrinn certify` answers is compared with DepQBF, and its circuits are tested on the formula, by
`validate` where it is true and by CaDiCaL over the clauses of `miter` where it is false.

Usage: bench/certifying.py SEED COUNT; wants depqbf and cadical. CELDRINN names the launcher, by default `celdrinn` of the PATH.
"""
import os
import random
import subprocess
import sys
import tempfile

from words import split


def formula(rng):
    """Zero to six blocks of at most fourteen variables, clauses of one to five literals."""
    variables = list(range(1, rng.randint(3, 14) + 1))
    rng.shuffle(variables)
    quantifier = rng.choice("ae")
    blocks = []
    while variables:
        size = rng.randint(1, len(variables))
        blocks.append((quantifier, variables[:size]))
        variables = variables[size:]
        quantifier = "e" if quantifier == "a" else "a"
    if blocks[-1][0] == "a" and rng.random() < 0.7:
        outer = blocks.pop()[1]
        if blocks:
            blocks[-1][1].extend(outer)
        else:
            blocks.append(("e", outer))
    everything = [v for _, block in blocks for v in block]
    width = rng.choice([2, 3, 3, 4])
    clauses = []
    for _ in range(rng.randint(1, int(2.6 * len(everything)))):
        chosen = rng.sample(everything, min(len(everything), width + rng.randint(-1, 1)))
        clauses.append([v if rng.random() < 0.5 else -v for v in chosen])
    lines = ["p cnf %d %d" % (max(everything), len(clauses))]
    lines += ["%s %s 0" % (q, " ".join(map(str, block))) for q, block in blocks]
    lines += ["%s 0" % " ".join(map(str, clause)) for clause in clauses]
    return "\n".join(lines) + "\n"


def main():
    words, _ = split(__doc__, 2, 2)
    rng, count = random.Random(int(words[0])), int(words[1])
    program = os.path.abspath(os.environ.get("CELDRINN", "celdrinn")) if "CELDRINN" in os.environ else "celdrinn"
    counts = {10: 0, 20: 0}
    wrong = 0
    with tempfile.TemporaryDirectory() as folder:
        def run(*words):
            return subprocess.run(words, cwd=folder, capture_output=True, text=True)

        for k in range(count):
            text = formula(rng)
            with open(os.path.join(folder, "f"), "w") as out:
                out.write(text)
            said = run(program, "certify", "f", "c")
            wanted = run("depqbf", "f").returncode
            way = [] if wanted == 10 else ["--with=cadical", "--herbrand"]
            tested = run(program, "validate", "f", "c", *way)
            if said.returncode == wanted and said.stderr == "" and tested.returncode == 0:
                counts[wanted] += 1
            else:
                wrong += 1
                print("%d: depqbf %d, certify %s, circuits %s\n%s" % (k, wanted, said.stdout.strip(), tested.stdout.strip(), text))
    print("%d true, %d false, %d wrong" % (counts[10], counts[20], wrong))
    return 1 if wrong else 0


if __name__ == "__main__":
    sys.exit(main())
