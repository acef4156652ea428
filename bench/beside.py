#!/usr/bin/env python3
"""Runs `simplify` and another program with its words in turn over many instances, and writes a table beside each other.

Usage: bench/beside.py OTHER GENERATORS [--class=medium,large] [--families=a,b] [--rungs=N] [--seconds=N] [--times=N]
                       [--clauses=N] [--check] [--out=TABLE.md]

OTHER takes the words `simplify IN OUT LOG`. GENERATORS is a Python program with the words `list` and `gen FAMILY SIZE FILE`; its list has a line
for each family, and under it the sizes of each class. Both programs run in turn, each so often as --times says (3), and the least processor time counts.
A run is stopped after --seconds (20); no instance has more than --clauses clauses (1,000,000). With --check each log is checked as well, once; a refusal stands behind the time.

The table has for each instance: times, their ratio, peak memory, measures, bytes of the logs. Below stand, over the instances where the other program
takes 0.1 seconds or more: the median ratio, the geometric mean, the ratios above 3; and for each family the growth of both between its two largest sizes, as
the exponent of time over clauses.
"""
import math
import os
import re
import resource
import statistics
import subprocess
import sys
import tempfile
import time

from words import CELDRINN, split


def families(generators):
    """Name and sizes by class of each family."""
    text = subprocess.run([sys.executable, generators, "list"], capture_output=True, text=True, check=True).stdout
    lines = text.splitlines()
    for head, sizes in zip(lines[::2], lines[1::2]):
        yield head.split()[1], {name: [int(n) for n in row.split(",") if n.strip()] for name, row in re.findall(r"(\w+) \[([^\]]*)\]", sizes)}


def run(program, words, seconds):
    """Processor seconds (None where stopped), peak memory in MiB, what it printed."""
    def limit():
        resource.setrlimit(resource.RLIMIT_CPU, (int(seconds) + 1, int(seconds) + 1))
    with tempfile.TemporaryFile() as said:
        child = subprocess.Popen([program, *words], stdout=said, stderr=subprocess.DEVNULL, preexec_fn=limit,
                                 env={**os.environ, "CELDRINN_PROGRESS": "0"})
        _, status, used = os.wait4(child.pid, 0)
        child.returncode = os.waitstatus_to_exitcode(status)
        said.seek(0)
        text = said.read().decode(errors="replace").strip()
    took = used.ru_utime + used.ru_stime
    return (took if child.returncode >= 0 else None), used.ru_maxrss / 1024, text


def clauses_of(path):
    with open(path, encoding="ascii") as file:
        for line in file:
            if line.startswith("p cnf"):
                return int(line.split()[3])
    return 0


def shown(seconds):
    return "stopped" if seconds is None else f"{seconds:.3f}"


def checked(seconds, line):
    """The time of `check`, and its line where that is a refusal."""
    return shown(seconds) if seconds is None or line.startswith("verified ") else f"{shown(seconds)} {line}"


def measure(folder, path, ours, other, options):
    """One row: for each program its least time, memory, line and bytes of the log; and the time of `check`."""
    row = {}
    for name, program in (("ours", ours), ("other", other)) * options["times"]:
        out, log = f"{folder}/{name}.out", f"{folder}/{name}.log"
        if row.get(name, (0,))[0] is None:
            continue
        took, memory, line = run(program, ["simplify", path, out, log], options["seconds"])
        best = row.get(name)
        if best is None or took is None or took < best[0]:
            row[name] = (took, memory, line, os.path.getsize(log) if os.path.exists(log) else 0)
    if options["check"] and row["ours"][0] is not None:
        row["check"] = run(ours, ["check", path, f"{folder}/ours.out", f"{folder}/ours.log"], 10 * options["seconds"])
    return row


def main():
    names, options = split(__doc__, 2, 2, **{"class": "medium,large", "families": "", "rungs": 2, "seconds": 20, "times": 3, "clauses": 1000000,
                                             "check": False, "out": ""})
    other, generators = names
    lines, rows = [], []

    def put(line):
        lines.append(line)
        print(line, flush=True)

    put("| Instance | Clauses | celdrinn s | other s | Ratio | MiB | other MiB | Line | other's line | Log bytes | other's |" + (" check s |" if options["check"] else ""))
    put("|---|---|---|---|---|---|---|---|---|---|---|" + ("---|" if options["check"] else ""))
    chosen = options["families"].split(",") if options["families"] else None
    with tempfile.TemporaryDirectory() as folder:
        for family, sizes in families(generators):
            if chosen and family not in chosen:
                continue
            for size in [n for kind in options["class"].split(",") for n in sizes.get(kind, [])][:options["rungs"] + (2 if "medium" in options["class"] and "large" in options["class"] else 0)]:
                path = f"{folder}/in"
                if subprocess.run([sys.executable, generators, "gen", family, str(size), path], capture_output=True).returncode != 0:
                    continue
                count = clauses_of(path)
                if count > options["clauses"]:
                    break
                row = measure(folder, path, CELDRINN, other, options)
                a, b = row["ours"], row["other"]
                ratio = a[0] / b[0] if a[0] and b[0] else None
                rows.append((family, size, count, a[0], b[0], ratio))
                put(f"| {family} {size} | {count:,} | {shown(a[0])} | {shown(b[0])} | {'' if ratio is None else f'{ratio:.2f}'} | {a[1]:.0f} | {b[1]:.0f} | {a[2]} | {b[2]} | {a[3]:,} | {b[3]:,} |"
                    + (f" {checked(row['check'][0], row['check'][2]) if 'check' in row else ''} |" if options["check"] else ""))
                if a[0] is None and b[0] is None:
                    break
    put("")
    told = [row for row in rows if row[5] and row[4] >= 0.1]
    if told:
        ratios = [row[5] for row in told]
        put(f"{len(rows)} runs; on the {len(told)} where the other program takes 0.1 s or more the median ratio is {statistics.median(ratios):.2f}, the geometric "
            f"mean {math.exp(sum(map(math.log, ratios)) / len(ratios)):.2f}; above 3: " + (", ".join(f"{row[0]} {row[1]} ({row[5]:.1f})" for row in told if row[5] > 3) or "none") + ".")
    stopped = [f"{row[0]} {row[1]}" for row in rows if row[3] is None and row[4] is not None]
    if stopped:
        put("Stopped where the other program was not: " + ", ".join(stopped) + ".")
    put("")
    put("| Family | Clauses | Growth | other's growth |")
    put("|---|---|---|---|")
    for family in dict.fromkeys(row[0] for row in rows):
        pair = [row for row in rows if row[0] == family and row[3] and row[4]][-2:]
        if len(pair) == 2 and pair[0][2] < pair[1][2]:
            grown = [math.log(pair[1][at] / pair[0][at]) / math.log(pair[1][2] / pair[0][2]) if pair[0][at] >= 0.005 else None for at in (3, 4)]
            put(f"| {family} | {pair[0][2]:,}, {pair[1][2]:,} | " + " | ".join("too short" if g is None else f"{g:.2f}" for g in grown) + " |")
    if options["out"]:
        with open(options["out"], "w", encoding="utf-8") as table:
            table.write("\n".join(lines) + "\n")


if __name__ == "__main__":
    main()
