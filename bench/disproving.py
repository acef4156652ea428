#!/usr/bin/env python3
"""Tries `disprove` on SAT solvers' proofs.

Usage: bench/disproving.py right COUNT    proofs that CaDiCaL makes of so many CNFs, with and without preprocessing, as text and in bytes, from a
                                          file and from a pipe, and those of PicoSAT: each is to be `false N` with N the steps to the empty clause
       bench/disproving.py mutated COUNT  so many proofs with one to three changes; the line is to be that of bench/judge_proofs.py

CELDRINN names the program. Where it has no `disprove`, the judge alone is asked. COUNT is 200 and 2000 for the figures of bench/RESULTS.md. It
counts what was said, lists what is wrong, keeps the files of that in bench/out/proofs/, and ends with 1 where something is.
PicoSAT (`picosat.trace -R`, Debian's) puts a line with `%RUPD32` before its proof, which is taken away. MiniSat of Debian writes no proof.
"""
import os
import random
import shutil
import subprocess
import sys

from judge_proofs import judge
from trials import CELDRINN, Trial, get, place, put, run, text_of
from words import split

WAYS = {
    "default": [],
    "-P3": ["-P3"],
    "--plain": ["--plain"],
    "blocked and covered": ["-P2", "--block=1", "--cover=1", "--condition=1"],
}


class Gates:
    """Clauses of gates over variables."""

    def __init__(self):
        self.top, self.clauses = 0, []

    def variables(self, count):
        self.top += count
        return list(range(self.top - count + 1, self.top + 1))

    def both(self, a, b):
        (c,) = self.variables(1)
        self.clauses += [[-c, a], [-c, b], [c, -a, -b]]
        return c

    def differ(self, a, b):
        (c,) = self.variables(1)
        self.clauses += [[-c, a, b], [-c, -a, -b], [c, -a, b], [c, a, -b]]
        return c

    def add(self, a, b, carry):
        half = self.differ(a, b)
        return self.differ(half, carry), -self.both(-self.both(a, b), -self.both(half, carry))

    def refuse(self, one, other):
        """Claims that two rows of bits differ."""
        self.clauses.append([self.differ(a, b) for a, b in zip(one, other)])


def random_clauses(rng, variables, ratio):
    signed = lambda v: v if rng.random() < 0.5 else -v
    return [[signed(v) for v in rng.sample(range(1, variables + 1), 3)] for _ in range(int(variables * ratio))]


def uniform(rng, size):
    """Random clauses of three literals, more than can be satisfied."""
    return 30 + 5 * size, random_clauses(rng, 30 + 5 * size, 6.5 - 0.05 * size)


def mixed(rng, size):
    """The same with definitions and wide clauses beside them: elimination and subsumption have work."""
    count = 25 + 4 * size
    clauses, top = random_clauses(rng, count, 5.6), count
    for _ in range(count):
        a, b = rng.sample(range(1, count + 1), 2)
        top += 1
        clauses += [[-top, a], [-top, b], [top, -a, -b]]
        if rng.random() < 0.5:
            clauses.append([top, rng.randrange(1, top), -rng.randrange(1, top)])
    return top, clauses


def parity(rng, size):
    """Two chains of exclusive ors over the same inputs in another order."""
    gates = Gates()
    inputs = gates.variables(6 + size % 12)
    ends = []
    for _ in range(2):
        rng.shuffle(inputs)
        ends.append(inputs[0])
        for x in inputs[1:]:
            ends[-1] = gates.differ(ends[-1], x)
    gates.clauses += [ends, [-end for end in ends]]
    return gates.top, gates.clauses


def adders(rng, size):
    gates = Gates()
    bits = 3 + size % 30
    x, y, (zero,) = gates.variables(bits), gates.variables(bits), gates.variables(1)
    gates.clauses.append([-zero])
    rows = []
    for turned in (False, True):
        carry, row = zero, []
        for a, b in zip(x, y):
            bit, carry = gates.add(carry, b, a) if turned else gates.add(a, b, carry)
            row.append(bit)
        rows.append([*row, carry])
    gates.refuse(*rows)
    rng.shuffle(gates.clauses)
    return gates.top, gates.clauses


def pigeons(rng, size):
    holes = 3 + size % 4
    at = lambda pigeon, hole: pigeon * holes + hole + 1
    clauses = [[at(p, h) for h in range(holes)] for p in range(holes + 1)]
    clauses += [[-at(p, h), -at(q, h)] for h in range(holes) for p in range(holes + 1) for q in range(p)]
    rng.shuffle(clauses)
    return holes * (holes + 1), clauses


def tiny(rng, size):
    """All clauses over one to three variables, some twice; now and then the empty one, a tautology, a literal twice."""
    count = 1 + size % 3
    clauses = [[]]
    for v in range(1, count + 1):
        clauses = [[*c, l] for c in clauses for l in (v, -v)]
    clauses += rng.sample(clauses, rng.randint(0, 2))
    clauses += rng.choice([[], [], [[1, -1]], [[1, 1]], [[]]])
    rng.shuffle(clauses)
    return count, clauses


def defined(rng, size):
    """The first kind with variables that no clause holds: a proof may define them, by clauses with a pivot."""
    top, clauses = uniform(rng, size)
    return top + 3, clauses


FAMILIES = [uniform, mixed, uniform, adders, parity, defined, mixed, pigeons, uniform, tiny]


def definitions(rng, top):
    """A proof's beginning: the last three variables are gates of the others."""
    lines = []
    for v in range(top - 2, top + 1):
        a, b = (x if rng.random() < 0.5 else -x for x in rng.sample(range(1, v), 2))
        lines += [f"{v} {-a} {-b} 0", f"{-v} {a} 0", f"{-v} {b} 0"]
    return lines


def bytes_of(lines):
    """The steps of a text in bytes."""
    out = bytearray()
    for words in map(str.split, lines):
        out += b"d" if words[0] == "d" else b"a"
        for number in (int(word) for word in words if word != "d"):
            code = 2 * abs(number) + (number < 0)
            while code >= 128:
                out.append(code % 128 + 128)
                code //= 128
            out.append(code)
    return bytes(out)


class Proofs(Trial):
    def __init__(self):
        super().__init__("proofs", ("in", "proof"))
        with open(CELDRINN, "rb") as program:
            self.has_command = b"disprove" in program.read()
        if not self.has_command:
            print("note: the program has no disprove; the judge alone is asked")

    def make(self, seed, most):
        """Writes the file `cnf`, for a solver, and `in`, perhaps with a set of all variables: its name, and its greatest variable."""
        family = FAMILIES[seed % len(FAMILIES)]
        size = seed // len(FAMILIES) % most
        top, clauses = family(random.Random(seed), size)
        put("cnf", text_of([], top, clauses))
        put("in", text_of([("e", range(1, top + 1))] if family is defined else [], top, clauses))
        return f"{family.__name__}-{size}-{seed}", top

    def prove(self, options):
        """CaDiCaL's proof as lines."""
        status = run(["cadical", "-q", "--no-binary", *options, place("cnf"), place("proof")])[0]
        return get("proof").decode().splitlines() if status == 20 else None

    def disprove(self, name, wanted, *words, given=None):
        """Compares a line and its status; `words` are put for the files."""
        if not self.has_command:
            return
        status, said = run([CELDRINN, "disprove", place("in"), *words], given=given)
        if said != wanted or status != (20 if wanted.startswith("false") else 1):
            self.complain(name, f"says '{said}' with status {status}, not '{wanted}'")

    def annotate(self, name, wanted, *forced):
        """Compares what is said of the proof where it is written with hints, and what `disprove` says of these."""
        if not self.has_command:
            return
        status, said = run([CELDRINN, "annotate", place("in"), place("proof"), place("hints"), *forced])
        if said != wanted.replace("false", "annotated") or status != (0 if wanted.startswith("false") else 1):
            self.complain(name, f"annotate says '{said}' with status {status}, where disprove says '{wanted}'")
        elif status == 0:
            self.disprove(f"{name}-hints", wanted, place("hints"))

    def try_both_forms(self, name, lines):
        """A proof as text and in bytes, each from a file and from a pipe."""
        empty = next((at for at, line in enumerate(lines, 1) if line == "0"), None)
        if b"\n0\n" in get("cnf"):
            empty = 0
        wanted = "refused end cause 11" if empty is None else f"false {empty}"
        for form, data in (("text", ("\n".join(lines) + "\n").encode()), ("bytes", bytes_of(lines))):
            put("proof", data)
            forced = ["--binary"] if form == "bytes" and data[:1] == b"d" and data[1:2] in (b" ", b"\t", b"\r", b"\n") else []
            if len(lines) <= 400 and (said := judge(get("in"), data, form == "bytes")) != wanted:
                self.complain(name, f"the judge says '{said}', not '{wanted}'")
            self.disprove(f"{name}-{form}", wanted, place("proof"), *forced)
            self.disprove(f"{name}-{form}-pipe", wanted, "/dev/stdin", *forced, given=data)
            self.annotate(f"{name}-{form}", wanted, *forced)
            self.counts[form, "from a file and from a pipe", wanted.split(" ")[0]] += 1

    def try_own_pipe(self, name, options):
        """CaDiCaL's own bytes, through a pipe as they come."""
        if not self.has_command:
            return
        with subprocess.Popen(["cadical", "-q", *options, place("cnf"), "-"], stdout=subprocess.PIPE, stderr=subprocess.DEVNULL) as solver:
            words = [CELDRINN, "disprove", place("in"), "/dev/stdin"]
            said = subprocess.run(words, stdin=solver.stdout, stdout=subprocess.PIPE, check=False)
            solver.stdout.close()
        if said.returncode != 20 or not said.stdout.startswith(b"false "):
            self.complain(name, f"says '{said.stdout.decode().strip()}' of a solver's pipe, with status {said.returncode}")
        self.counts["a solver's pipe"] += 1


def try_right(trial, count):
    for seed in range(count):
        name, top = trial.make(seed, 20)
        for way, options in WAYS.items():
            lines = trial.prove(options)
            if lines is None:
                trial.counts["satisfiable"] += 1
                break
            if seed % len(FAMILIES) == FAMILIES.index(defined):
                lines = definitions(random.Random(seed), top) + lines
            trial.counts["additions"] += sum(not line.startswith("d") for line in lines)
            trial.counts["deletions"] += sum(line.startswith("d") for line in lines)
            trial.try_both_forms(f"{name}-{way}", lines)
            if "defined" not in name:
                trial.try_own_pipe(f"{name}-{way}-solver", options)
        if shutil.which("picosat.trace") and run(["picosat.trace", "-n", "-R", place("rup"), place("cnf")])[0] == 20:
            trial.try_both_forms(f"{name}-picosat", get("rup").decode().splitlines()[1:])
        trial.counts["CNFs"] += 1


def changed(rng, lines, clauses, top):
    """A step goes, is doubled, exchanged, turned into the other kind, or there besides; a literal is another one, gone, or there besides."""
    at, kind = rng.randrange(len(lines)), rng.randrange(12)
    words = lines[at].split()
    numbers = [k for k, word in enumerate(words[:-1]) if word != "d"]
    literal = str(rng.choice([1, -1]) * rng.randint(1, top + rng.choice([0, 0, 0, 1])))
    if kind == 0:
        del lines[at]
    elif kind == 1:
        lines.insert(at, rng.choice(lines))
    elif kind == 2:
        other = rng.randrange(len(lines))
        lines[at], lines[other] = lines[other], lines[at]
    elif kind == 3:
        lines[at] = " ".join(words[1:]) if words[0] == "d" else "d " + lines[at]
    elif kind in (4, 5, 6):
        lines.insert(at, "d " + rng.choice(clauses))
    elif kind == 7:
        words.insert(rng.randint(words[0] == "d", len(words) - 1), literal)
        lines[at] = " ".join(words)
    elif numbers:
        chosen = rng.choice(numbers)
        if kind == 8:
            del words[chosen]
        elif kind == 9:
            words[chosen] = literal
        elif kind == 10:
            words[chosen] = str(-int(words[chosen]))
        else:
            words.insert(words[0] == "d", words.pop(chosen))
        lines[at] = " ".join(words)


def broken_bytes(rng, data):
    """The same proof cut off, or with one byte changed, gone, or there besides; letters that begin other steps of a log are left alone."""
    at, kind = rng.randrange(len(data)), rng.randrange(4)
    other = rng.choice(b"0123456789- \nadx\x00\x80\x81\xff")
    return [data[:at], data[:at] + bytes([other]) + data[at + 1 :], data[:at] + data[at + 1 :], data[:at] + bytes([other]) + data[at:]][kind]


def try_mutated(trial, count):
    done, seed = 0, 0
    while done < count:
        name, top = trial.make(seed, 6)
        rng = random.Random(seed)
        lines = trial.prove(list(WAYS.values())[seed % 4])
        clauses = get("cnf").decode().splitlines()[1:]
        seed += 1
        if not lines or len(lines) > 300:
            continue
        if name.startswith("defined"):
            lines = definitions(rng, top) + lines
        for number in range(10):
            one = list(lines)
            for _ in range(rng.choice([1, 1, 2, 3])):
                if one:
                    changed(rng, one, clauses, top)
            data = bytes_of(one) if rng.random() < 0.5 else "".join(line + "\n" for line in one).encode()
            if data and rng.random() < 0.2:
                data = broken_bytes(rng, data)
            put("proof", data)
            wanted = judge(get("in"), data)
            trial.disprove(f"mutated-{name}-{number}", wanted, place("proof"))
            said = wanted.split(" ")
            trial.counts[" ".join(said[:1] + said[-2:]) if said[0] == "refused" else said[0]] += 1
            done += 1


def main():
    names, _ = split(__doc__, 2, 2)
    with Proofs() as trial:
        {"right": try_right, "mutated": try_mutated}[names[0]](trial, int(names[1]))
        sys.exit(trial.close())


if __name__ == "__main__":
    main()
