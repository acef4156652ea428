#!/usr/bin/env python3
"""Celdrinn from Python: a formula in lists, what is left of it, and functions of its variables. docs/PIPELINES.md, "From a program in C".

Usage: PYTHONPATH=packaging/python examples/from-python.py [FOLDER], where FOLDER has formulas whose sizes before and after are said; with
matplotlib they are drawn to sizes.png, too"""
import pathlib
import sys

import celdrinn


def lists():
    result = celdrinn.simplify([[1, 2, 3], [-1, -2, 3], [-3, 4], [-4, 1, 2], [-4, -1, -2]], [("a", [1]), ("e", [2, 3, 4])], grow=8, seconds=10)
    print(result.line, "checked:", result.check(), "steps")
    truth, skolem = celdrinn.solve(result.out)
    if truth:
        functions = result.rebuild(skolem)
        print("where 1 is true:", functions({1: True}))
        print("they are right:", celdrinn.validate(result.source, functions))


def sizes(folder):
    rows = []
    for path in sorted(pathlib.Path(folder).glob("*.qdimacs")):
        try:
            before = path.read_bytes()
            result = celdrinn.simplify(before, seconds=60)
        except celdrinn.FormulaError as error:
            print(f"{path.name}: line {error.line}, cause {error.cause}")
            continue
        except celdrinn.Stopped as error:
            result = error.result
        if result is not None:
            rows.append((len(celdrinn.read(before)[0]), len(result.clauses)))
            print(f"{path.name}: {rows[-1][0]} clauses, {rows[-1][1]} are left")
    try:
        from matplotlib import pyplot
    except ImportError:
        return
    pyplot.loglog([1 + x for x, _ in rows], [1 + y for _, y in rows], "x")
    pyplot.xlabel("clauses before, and 1")
    pyplot.ylabel("clauses after, and 1")
    pyplot.savefig("sizes.png")


if __name__ == "__main__":
    sizes(sys.argv[1]) if len(sys.argv) > 1 else lists()
