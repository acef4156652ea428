#!/usr/bin/env python3
"""What `simplify` does with too little memory.

Usage: bench/memory.py

Five formulas, each first with ample memory and then with its address space limited (as by `ulimit -v`) in steps of an eighth of what it took. A line a run:
the limit in KiB, the status, the processor seconds, and how many times the seconds of the run with ample memory that is. A run is ended after 60 processor
seconds; its status is then -9 or -24.
"""
import os
import resource
import subprocess
import tempfile
import time

from words import CELDRINN, HOME, split

FORMULAS = (("gen", 20000), ("equal", 30000), ("gated", 5300), ("copies", 16000), ("adder", 51))
SECONDS = 60


def run(program, limit):
    """Status, processor seconds and greatest address space in KiB of a run."""

    def limits():
        resource.setrlimit(resource.RLIMIT_CPU, (SECONDS, SECONDS))
        if limit:
            resource.setrlimit(resource.RLIMIT_AS, (limit * 1024, limit * 1024))

    before = resource.getrusage(resource.RUSAGE_CHILDREN)
    child = subprocess.Popen(
        [program, "simplify", "in", "out", "log"],
        stdout=subprocess.DEVNULL,
        stderr=subprocess.DEVNULL,
        env={"CELDRINN_PROGRESS": "0"},
        preexec_fn=limits,
    )
    peak = 0
    while child.poll() is None:
        try:
            with open(f"/proc/{child.pid}/status") as lines:
                for line in lines:
                    if line.startswith("VmPeak"):
                        peak = max(peak, int(line.split()[1]))
        except OSError:
            pass
        time.sleep(0.002)
    after = resource.getrusage(resource.RUSAGE_CHILDREN)
    used = after.ru_utime + after.ru_stime - before.ru_utime - before.ru_stime
    return child.returncode, used, peak


def main():
    split(__doc__, 0, 0)
    program = CELDRINN
    with tempfile.TemporaryDirectory() as folder:
        os.chdir(folder)
        for family, size in FORMULAS:
            if family == "gen":
                subprocess.run([program, "gen", "7", str(size), "in"], stdout=subprocess.DEVNULL, check=True)
            else:
                subprocess.run([f"{HOME}/bench/families.py", family, str(size), "in"], check=True)
            status, ample, peak = run(program, None)
            print(f"{family} {size} ample: status {status}, {ample:.2f} s, {peak} KiB", flush=True)
            for eighth in range(7, 0, -1):
                limit = peak * eighth // 8
                status, used, _ = run(program, limit)
                times = used / max(ample, 0.001)
                print(f"{family} {size} {eighth}/8 {limit} KiB: status {status}, {used:.2f} s, {times:.1f} times", flush=True)


if __name__ == "__main__":
    main()
