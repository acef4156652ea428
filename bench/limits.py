#!/usr/bin/env python3
"""How the time of `simplify`, `check` and `annotate` grows, for every family of bench/families.py and bench/shapes.py.

Usage: bench/limits.py [--seconds=N] [--out=TABLE.md] [FAMILY ..]

Each family is run at three sizes: those of bench/shapes.py, and of bench/families.py the sizes for about 4,000, 16,000 and 64,000 clauses, smaller ones
where these would take minutes. `check` and `annotate` take the log that `simplify` wrote. A run is stopped after N processor seconds (20); then the
larger sizes are left out. One run each, with the seconds in the program's own code (user).

The table has two families in a line: the sizes, the clauses at the last one where their number is another, and the seconds of each command at the three
sizes, with the exponent in brackets: by which power of the number of clauses the time grew from the second size to the third. It is left out where the
second time is below 0.05 seconds, which tells too little. Below stand the exponents above 1.3, and where `check` takes more than twice the time of `simplify` and 0.1 seconds, or `annotate` more than one and a
half times that of `check` and 0.1 seconds. The table is written after each family, so a run that is stopped loses nothing.
"""
import math
import os
import resource
import subprocess
import sys
import tempfile

import families
import shapes
from words import CELDRINN, HOME, split

COMMANDS = ("simplify", "check", "annotate")

# The statuses of an answer: of a command that did its work, and of a formula that is true or false.
ANSWERS = (0, 10, 20)
HEAD = "| Family, sizes (clauses) | `simplify` | `check` | `annotate` |"

# Families whose sizes for 64,000 clauses would take long.
SMALLER = {"game": (9, 16, 24), "gripper": (8, 16, 32), "completion": (25, 50, 100), "adder": (51, 205, 600), "gates": (1333, 5333, 16000)}


def sizes_of(name):
    if name in shapes.FAMILIES:
        return shapes.FAMILIES[name][1]
    return SMALLER.get(name) or families.FAMILIES[name][1][1:4]


def run(words, seconds):
    """The seconds in the program's own code; None where it was stopped."""

    def limit():
        resource.setrlimit(resource.RLIMIT_CPU, (seconds, seconds + 1))

    child = subprocess.Popen(words, stdout=subprocess.DEVNULL, stderr=subprocess.DEVNULL, preexec_fn=limit,
                             env={**os.environ, "CELDRINN_PROGRESS": "0"})
    _, status, used = os.wait4(child.pid, 0)
    child.returncode = os.waitstatus_to_exitcode(status)
    if child.returncode < 0:
        return None
    if child.returncode not in ANSWERS:
        sys.exit(f"{' '.join(words)}: status {child.returncode}")
    return used.ru_utime


def clauses_of(path):
    with open(path, encoding="ascii") as file:
        return int(file.readline().split()[3])


def measure(program, name, size, seconds):
    """The number of clauses, and the seconds of each command; none behind one that was stopped."""
    script = "shapes" if name in shapes.FAMILIES else "families"
    subprocess.run([sys.executable, f"{HOME}/bench/{script}.py", name, str(size), "in"], check=True)
    took = {"simplify": run([program, "simplify", "in", "out", "log"], seconds)}
    if took["simplify"] is not None:
        took["check"] = run([program, "check", "in", "out", "log"], seconds)
        took["annotate"] = run([program, "annotate", "in", "out", "log", "hinted"], seconds)
    return clauses_of("in"), took


def exponent(points):
    """By which power of the clauses the time grew between the last two of three points; None where that can't be told."""
    if len(points) < 3:
        return None
    (fewer, before), (more, after) = points[-2:]
    if before is None or after is None or before < 0.05 or more <= fewer:
        return None
    return math.log(after / before) / math.log(more / fewer)


def shown(seconds):
    return "stopped" if seconds is None else f"{seconds:.2f}"


def line_of(name, sizes, runs):
    """The line of a family in the table, and what is to be said of it below."""
    last = runs[-1][0]
    cells = [f"{name} {', '.join(f'{size:,}' for size in sizes[:len(runs)])}" + (f" ({last:,})" if last != sizes[len(runs) - 1] else "")]
    remarks = []
    for command in COMMANDS:
        points = [(clauses, took[command]) for clauses, took in runs if command in took]
        power = exponent(points)
        cells.append(", ".join(shown(seconds) for _, seconds in points) + (f" ({power:.2f})" if power is not None else ""))
        if power is not None and power > 1.3:
            remarks.append(f"{name}: `{command}` grows with the power {power:.2f}")
    took = runs[-1][1]
    for command, other, times in (("check", "simplify", 2), ("annotate", "check", 1.5)):
        ours, theirs = took.get(command), took.get(other)
        if ours is not None and theirs is not None and ours > times * theirs and ours > 0.1:
            remarks.append(f"{name}: `{command}` {ours:.2f} s, `{other}` {theirs:.2f} s")
    return f"| {' | '.join(cells)} |", remarks


def in_two(lines):
    """The lines of a table, its second half beside the first."""
    half = (len(lines) + 1) // 2
    rows = [HEAD + HEAD[1:], "|---" * 8 + "|"]
    for at in range(half):
        rows.append(lines[at] + (lines[half + at][1:] if half + at < len(lines) else " | | | |"))
    return "".join(f"{row}\n" for row in rows)


def tell(path, lines, remarks):
    text = in_two(lines) + "\n" + "".join(f"- {remark}\n" for remark in remarks)
    with open(path, "w", encoding="utf-8") as out:
        out.write(text)


def main():
    names, options = split(__doc__, seconds=20, out=f"{HOME}/bench/out/limits.md")
    names = names or [*families.FAMILIES, *shapes.FAMILIES]
    if any(name not in {**families.FAMILIES, **shapes.FAMILIES} for name in names):
        sys.exit(__doc__)
    seconds, path = options["seconds"], os.path.realpath(options["out"])
    os.makedirs(os.path.dirname(path), exist_ok=True)
    lines, remarks = [], []
    with tempfile.TemporaryDirectory() as folder:
        os.chdir(folder)
        for name in names:
            runs = []
            for size in sizes_of(name):
                runs.append(measure(CELDRINN, name, size, seconds))
                if len(runs[-1][1]) < len(COMMANDS) or None in runs[-1][1].values():
                    break
            line, more = line_of(name, sizes_of(name), runs)
            lines.append(line)
            remarks += more
            print(line, flush=True)
            tell(path, lines, remarks)
        os.chdir(HOME)
    print("".join(f"- {remark}\n" for remark in remarks), end="")
    print(f"table: {path}")


if __name__ == "__main__":
    main()
