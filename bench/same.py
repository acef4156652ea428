#!/usr/bin/env python3
"""Two programs beside each other: whether they say and write the same, byte for byte; or how many instructions both take.

Usage: bench/same.py OLD NEW [--formulas=300] [--seconds=20] [--jobs=N] [FAMILY ..]
       bench/same.py OLD NEW --instructions [--percent=2] [FAMILY:SIZE ..]

Of the first form: formulas of all families of bench/families.py and bench/shapes.py, or of the named ones, at six sizes up to the double of the smallest one
that is listed; the rest up to --formulas are those of `gen`. Both programs do the following, and statuses, lines and files are compared: `simplify`; `check`,
`annotate` and `apply` of its log, `check` of what `annotate` wrote; where IN is true or false `rebuild`, or `refute` and `disprove` with CERT; `solve` with
1,000 decisions; `validate` and `miter` of the circuits. A command that either program does not end within --seconds processor seconds is left out, with what
reads its files. Counts are put at the end; what differs is listed before, and its formula is kept in bench/out/same/.

Of the second form: by callgrind, the instructions in millions of `simplify`, and of `check` of the old program's log. Ten families by default.

The status is 1 where something differs, or where NEW takes more instructions than OLD by more than --percent.
"""
import collections
import concurrent.futures
import os
import re
import shutil
import subprocess
import sys
import tempfile

import families
import shapes
from trials import run
from words import HOME, split

SIXTHS = (1 / 8, 1 / 4, 1 / 2, 3 / 4, 1, 2)
COUNTED = ("ring:1333", "cuts:2000", "qbf:4000", "random:4000", "sat:4000", "adder:51", "gates:1333", "memory:40", "game:8", "gripper:12")
# What is compared, in its order: command, files that it reads, files that it writes, options. `none` are the circuits of a formula without variables.
ALWAYS = (
    ("simplify", ("in",), ("out", "log"), ()),
    ("check", ("in", "out", "log"), (), ()),
    ("annotate", ("in", "out", "log"), ("hinted",), ()),
    ("check", ("in", "out", "hinted"), (), ()),
    ("apply", ("in", "log"), ("applied",), ()),
    ("solve", ("in",), ("solved", "solving", "found"), ("--budget=1000",)),
    ("validate", ("in", "found"), (), ("--budget=1000",)),
    ("miter", ("in", "found"), ("mitered",), ()),
)
IF_TRUE = (("rebuild", ("in", "out", "log", "none"), ("cert",), ()), ("validate", ("in", "cert"), (), ("--budget=1000",)))
IF_FALSE = (("refute", ("in", "out", "log", "none"), ("cert",), ()), ("disprove", ("in", "log"), ("disproof",), ()))


def sizes_of(name):
    """Six sizes of a family, fewer where it is small."""
    least = (shapes.FAMILIES.get(name) or families.FAMILIES[name])[1][0]
    return sorted({max(3, round(least * part)) for part in SIXTHS})


def write(program, name, size, path):
    """A formula; False where the family has none of this size."""
    if name == "gen":
        return run([program, "gen", str(size), str(10 + size % 90), path])[0] == 0
    script = "shapes" if name in shapes.FAMILIES else "families"
    done = subprocess.run([sys.executable, f"{HOME}/bench/{script}.py", name, str(size), path], stderr=subprocess.DEVNULL, check=False)
    return done.returncode == 0


def play(program, folder, step, seconds):
    """The status and the line of a command, and what its files hold; None where it was stopped, or where a file that it reads is not there."""
    verb, reads, writes, options = step
    at = [os.path.join(folder, name) for name in (*reads, *writes)]
    if not all(os.path.exists(name) for name in at[:len(reads)]):
        return None
    status, said = run([program, verb, *at, *options], seconds=seconds)
    if status < 0:
        for name in at[len(reads):]:
            if os.path.exists(name):
                os.remove(name)
        return None
    held = []
    for name in at[len(reads):]:
        with open(name, "rb") if os.path.exists(name) else open(os.devnull, "rb") as file:
            held.append(file.read())
    return status, said, held


def compare(programs, name, size, seconds):
    """The commands that were compared, and those that differ, of one formula. Nothing where there is no such formula."""
    compared, differing = [], []
    with tempfile.TemporaryDirectory() as folder:
        homes = [os.path.join(folder, home) for home in ("old", "new")]
        for home in homes:
            os.mkdir(home)
            with open(f"{home}/none", "w", encoding="ascii") as file:
                file.write("aag 0 0 0 0 0\n")
        if not write(programs[0], name, size, f"{homes[0]}/in"):
            return [], []
        shutil.copy(f"{homes[0]}/in", f"{homes[1]}/in")
        steps = list(ALWAYS)
        while steps:
            step = steps.pop(0)
            answers = [play(program, home, step, seconds) for program, home in zip(programs, homes)]
            if None in answers:
                continue
            compared.append(step[0])
            if answers[0] != answers[1]:
                differing.append(f"{step[0]}: {answers[0][:2]} and {answers[1][:2]}")
            if step[0] == "simplify":
                steps += {10: IF_TRUE, 20: IF_FALSE}.get(answers[0][0], ())
        if differing:
            os.makedirs(f"{HOME}/bench/out/same", exist_ok=True)
            shutil.copy(f"{homes[0]}/in", f"{HOME}/bench/out/same/{name}-{size}")
    return compared, differing


def compare_all(programs, names, options):
    """Prints counts; True where all is the same."""
    wanted = [(name, size) for name in names or [*families.FAMILIES, *shapes.FAMILIES] for size in sizes_of(name)]
    wanted += [("gen", seed) for seed in range(1, options["formulas"] - len(wanted) + 1)] if not names else []
    counts, formulas, wrong = collections.Counter(), collections.Counter(), 0
    with concurrent.futures.ThreadPoolExecutor(options["jobs"]) as pool:
        rows = pool.map(lambda it: (it, compare(programs, *it, options["seconds"])), wanted[:options["formulas"]])
        for (name, size), (compared, differing) in rows:
            counts.update(compared)
            formulas[name] += bool(compared)
            wrong += len(differing)
            for text in differing:
                print(f"DIFFERS {name} {size} {text}", flush=True)
    print(f"{sum(formulas.values())} formulas of {sum(1 for count in formulas.values() if count)} kinds, {sum(counts.values())} commands:",
          ", ".join(f"{verb} {count}" for verb, count in sorted(counts.items())))
    print(f"{wrong} differ")
    return wrong == 0


def instructions(program, words):
    """Millions of instructions."""
    done = subprocess.run(["valgrind", "--tool=callgrind", "--callgrind-out-file=/dev/null", program, *words], stdout=subprocess.DEVNULL,
                          stderr=subprocess.PIPE, check=False, env={**os.environ, "CELDRINN_PROGRESS": "0"})
    return int(re.search(r"Collected *: *(\d+)", done.stderr.decode(errors="replace"))[1]) / 1e6


def count_all(programs, names, percent):
    """Prints a table; True where nothing takes more than so many percent more."""
    worst = 0
    print("| Formula | `simplify` old, new | % | `check` old, new | % |\n|---|---|---|---|---|")
    for word in names or COUNTED:
        name, size = word.split(":")
        with tempfile.TemporaryDirectory() as folder:
            given = [os.path.join(folder, file) for file in ("in", "out", "log")]
            if not write(programs[0], name, int(size), given[0]):
                sys.exit(f"no formula: {word}")
            cells = []
            for verb, words in (("simplify", [given[0], f"{folder}/out2", f"{folder}/log2"]), ("check", given)):
                if verb == "check":
                    run([programs[0], "simplify", *given])
                old, new = (instructions(program, [verb, *words]) for program in programs)
                more = 100 * (new - old) / old
                worst = max(worst, more)
                cells.append(f"{old:,.1f}, {new:,.1f} | {more:+.2f}")
            print(f"| {name} {int(size):,} | {' | '.join(cells)} |", flush=True)
    print(f"at most {worst:+.2f} %")
    return worst <= percent


def main():
    names, options = split(__doc__, 2, formulas=300, seconds=20, jobs=1, instructions=False, percent=2.0)
    programs = [os.path.realpath(name) for name in names[:2]]
    if not all(os.access(program, os.X_OK) for program in programs):
        sys.exit("OLD and NEW are programs")
    if options["instructions"]:
        return not count_all(programs, names[2:], options["percent"])
    return not compare_all(programs, names[2:], options)


if __name__ == "__main__":
    sys.exit(main())
