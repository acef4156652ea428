"""What the trials of this folder share: a folder of work files, runs within processor seconds, formulas as text, and counts of what was said.
CELDRINN names the program. What is wrong is listed, and its files are kept in bench/out/."""
import collections
import os
import resource
import shutil
import subprocess

from words import CELDRINN, HOME

HERE = f"{HOME}/bench"
WORK = os.path.join(os.environ.get("TMPDIR", "/tmp"), f"trial-{os.getpid()}")


def place(name):
    return os.path.join(WORK, name)


def put(name, data):
    with open(place(name), "wb") as out:
        out.write(data)


def get(name):
    with open(os.path.join(WORK, name), "rb") as given:
        return given.read()


def run(words, out=subprocess.PIPE, seconds=None, given=None):
    """The status and what was said, within so many processor seconds."""
    limit = (lambda: resource.setrlimit(resource.RLIMIT_CPU, (seconds, seconds))) if seconds else None
    stdin = subprocess.PIPE if given is not None else subprocess.DEVNULL
    with subprocess.Popen(words, stdin=stdin, stdout=out, stderr=subprocess.DEVNULL, preexec_fn=limit) as started:
        said = started.communicate(given)[0]
    return started.returncode, (said or b"").decode(errors="replace").strip()


def measured(words, out=subprocess.DEVNULL, seconds=None):
    """The status, what was said, the processor seconds and the greatest peak in MiB of all runs so far."""
    before = resource.getrusage(resource.RUSAGE_CHILDREN)
    status, said = run(words, out, seconds)
    after = resource.getrusage(resource.RUSAGE_CHILDREN)
    return status, said, after.ru_utime + after.ru_stime - before.ru_utime - before.ru_stime


def text_of(prefix, variables, clauses):
    """A formula as a file: `prefix` has pairs of a quantifier and its variables."""
    lines = [f"p cnf {variables} {len(clauses)}", *(" ".join([q, *map(str, block), "0"]) for q, block in prefix)]
    return "\n".join(lines + [" ".join(map(str, [*clause, 0])) for clause in clauses] + [""]).encode()


class Trial:
    """Counts what was said, and keeps the files of what was wrong."""

    def __init__(self, name, files):
        self.kept, self.files = os.path.join(HERE, "out", name), files
        self.counts, self.wrong = collections.Counter(), 0

    def __enter__(self):
        os.makedirs(WORK, exist_ok=True)
        return self

    def __exit__(self, *_):
        shutil.rmtree(WORK, ignore_errors=True)

    def complain(self, name, *why):
        self.wrong += 1
        self.counts["WRONG"] += 1
        print("WRONG", name, *why, flush=True)
        os.makedirs(self.kept, exist_ok=True)
        for kind in self.files:
            if os.path.exists(place(kind)):
                shutil.copy(place(kind), os.path.join(self.kept, f"{name}.{kind}"))

    def close(self):
        """Prints the counts; 1 where something was wrong."""
        for key in sorted(self.counts, key=str):
            print(*key if isinstance(key, tuple) else [key], self.counts[key])
        return 1 if self.wrong else 0
