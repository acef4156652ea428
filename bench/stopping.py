#!/usr/bin/env python3
"""How long `simplify` goes on behind a signal, which is to end it with OUT and LOG.

Usage: bench/stopping.py [--at=0.2,0.5,0.8] [--command=PROGRAM] FAMILY:SIZE..    of bench/families.py or bench/shapes.py

Each formula is simplified once to its end. Then it gets a signal, INT and TERM in turn, at each share of that run, by the program's own
processor time. Written are the seconds by the clock from the signal to the end of the command, and the processor seconds of the program
in them; the line; and what `check` says of OUT and LOG (ok, or its line). PROGRAM is ./celdrinn, if not said. Only on Linux.
"""
import os
import signal
import subprocess
import sys
import tempfile
import time

HERE = os.path.dirname(os.path.abspath(__file__))
TICKS = os.sysconf("SC_CLK_TCK")


def children(pid):
    try:
        with open(f"/proc/{pid}/task/{pid}/children", encoding="ascii") as it:
            below = [int(word) for word in it.read().split()]
    except OSError:
        return []
    return below + [deeper for child in below for deeper in children(child)]


def spent(pid):
    """The processor seconds of the program below a launcher, and 0 where it is not there yet."""
    for child in [pid, *children(pid)]:
        try:
            with open(f"/proc/{child}/stat", encoding="ascii") as it:
                name, rest = it.read().split(" ", 1)[1].rsplit(")", 1)
        except OSError:
            continue
        if name.startswith("(celdrinn-x86"):
            words = rest.split()
            return (int(words[11]) + int(words[12])) / TICKS
    return 0.0


def begin(command, folder, name):
    words = [command, "simplify", name, f"{folder}/out", f"{folder}/log", "--force"]
    return subprocess.Popen(words, stdout=subprocess.PIPE, stderr=subprocess.DEVNULL, text=True, env={**os.environ, "CELDRINN_PROGRESS": "0"},
                            preexec_fn=lambda: signal.signal(signal.SIGINT, signal.SIG_DFL))


def whole(command, folder, name):
    """The program's processor seconds of a run that nothing ends, as far as they were seen."""
    run, most = begin(command, folder, name), 0.0
    while run.poll() is None:
        most = max(most, spent(run.pid))
        time.sleep(0.02)
    return most


def ended(command, folder, name, share, number):
    """A run that gets a signal once it has taken so many seconds; None where it ended before."""
    run = begin(command, folder, name)
    while run.poll() is None and spent(run.pid) < share:
        time.sleep(0.01)
    if run.poll() is not None:
        return None
    before, began, last = spent(run.pid), time.perf_counter(), 0.0
    run.send_signal(number)
    while run.poll() is None:
        last = max(last, spent(run.pid))
        time.sleep(0.01)
    took = time.perf_counter() - began
    return took, max(last - before, 0.0), run.stdout.read().strip()


def judged(command, folder, name):
    said = subprocess.run([command, "check", name, f"{folder}/out", f"{folder}/log"], capture_output=True, text=True, check=False)
    return "ok" if said.returncode == 0 else said.stdout.strip()


def main():
    given = dict(word[2:].split("=", 1) for word in sys.argv[1:] if word.startswith("--") and "=" in word)
    shapes = [word for word in sys.argv[1:] if not word.startswith("--")]
    if not shapes:
        print(__doc__)
        return 64
    command = given.get("command", os.path.join(HERE, "..", "celdrinn"))
    shares = [float(word) for word in given.get("at", "0.2,0.5,0.8").split(",")]
    with tempfile.TemporaryDirectory() as folder:
        for shape in shapes:
            family, size = shape.split(":")
            name = f"{folder}/in"
            for script in ("families.py", "shapes.py"):
                if subprocess.run([f"{HERE}/{script}", family, size, name], stderr=subprocess.DEVNULL, check=False).returncode == 0:
                    break
            with open(name, encoding="ascii") as it:
                clauses = it.readline().split()[3]
            all_of_it = whole(command, folder, name)
            for k, share in enumerate(shares):
                number = (signal.SIGINT, signal.SIGTERM)[k % 2]
                found = ended(command, folder, name, share * all_of_it, number)
                if found is None:
                    print(shape, clauses, f"{all_of_it:.2f}", share, "ended before", flush=True)
                    continue
                took, work, line = found
                print(shape, clauses, f"{all_of_it:.2f}", share, number.name, f"{took:.2f}", f"{work:.2f}", line, judged(command, folder, name), sep="\t", flush=True)
    return 0


sys.exit(main())
