#!/usr/bin/env python3
"""Plays random cases of every command with the released program, and compares each answer with a reference of its own.

Usage: bench/fuzz/fuzz.py [--seed=N] [--runs=N] [--seconds=N] [--verb=WORD] [--keep=FOLDER]; wants depqbf for traces. CELDRINN names the program.

Formulas, logs of both profiles, circuits and traces are made by chance, most of them right and many with mistakes; some files are missing or are folders,
some places can't be written, some files may not grow, and some nobody wants (as where OUT, LOG or CERT is left out). The reference (formulas.py, logs.py, circuits.py, commands.py) follows docs/FORMATS.md and
docs/THEORY.md, and decides truth by truth tables. At the first difference the case is made as small as it goes and kept in a folder, and the exit status is 1.
The same seed plays the same cases. A trace needs depqbf; without it none is played.
"""
import argparse
import collections
import hashlib
import os
import random
import resource
import shutil
import subprocess
import sys
import tempfile
import time

import circuits
import formulas
import logs
import making
from commands import FOLDER, READS, WORDS, WRITES, Answer, Case, judge

HERE = os.path.dirname(os.path.realpath(__file__))
PROGRAM = os.path.realpath(os.environ.get("CELDRINN", os.path.join(HERE, "..", "..", "dist", "celdrinn-x86_64-linux")))
LONGEST = 300
# of this program and of each call
MOST_MEMORY = 4 << 30
FULL = "/dev/full"
DONE = (0, 2, 10, 20)
NOWHERE = "nowhere/file"


class Player:
    """Runs cases in a folder of its own."""

    def __init__(self, program):
        self.program = os.path.realpath(program)
        self.folder = tempfile.mkdtemp(prefix="fuzz-")

    def close(self):
        shutil.rmtree(self.folder)

    def path(self, name):
        return os.path.join(self.folder, name)

    def clear(self):
        for name in os.listdir(self.folder):
            path = self.path(name)
            (shutil.rmtree if os.path.isdir(path) else os.remove)(path)

    def words(self, case):
        """The words of a case: numbers before names, and options behind them."""
        numbers = [o for o in case.options if not o.startswith("--")]
        names = list(dict.fromkeys(READS[case.verb] + WRITES[case.verb]))
        place = {name: "/" * k + "dev/null" for k, name in enumerate(sorted(case.left), 1)}
        place.update(dict([case.fault]) if case.fault and case.fault[0] != "size" else {})
        return [WORDS.get(case.verb, case.verb), *numbers, *(place.get(n, n) for n in names), *(o for o in case.options if o.startswith("--"))]

    def play(self, case):
        """The answer to a case."""
        self.clear()
        for name, held in case.files.items():
            if held == FOLDER:
                os.mkdir(self.path(name))
            elif held is not None:
                with open(self.path(name), "wb") as out:
                    out.write(held)
        size = case.fault[1] if case.fault and case.fault[0] == "size" else None
        limit = (lambda: resource.setrlimit(resource.RLIMIT_FSIZE, (size, size))) if size is not None else None
        if case.fault and case.fault[1] == "folder":
            os.mkdir(self.path("folder"))
        try:
            run = subprocess.run([self.program, *self.words(case)], cwd=self.folder, stdin=subprocess.DEVNULL, stdout=subprocess.PIPE,
                                 stderr=subprocess.DEVNULL, timeout=LONGEST, check=False, preexec_fn=limit, restore_signals=False)
        except subprocess.TimeoutExpired:
            return Answer(-1, f"no end in {LONGEST} seconds", {})
        made = {}
        for name in WRITES[case.verb]:
            if os.path.isfile(self.path(name)):
                with open(self.path(name), "rb") as text:
                    made[name] = text.read()
        if case.fault and case.fault[1] == FULL and run.returncode in DONE:
            made.setdefault(case.fault[0], b"")  # what takes no byte was given none
        line = run.stdout.decode("utf-8", "replace")
        return Answer(run.returncode, line.removesuffix("\n"), made)


class Maker:
    """Makes cases."""

    def __init__(self, rng, player, verb):
        self.rng, self.player, self.verb = rng, player, verb
        self.verbs = [v for v in READS if v not in ("gen", "demo", "extract")] * 8 + ["gen", "demo"] + ["check"] * 4
        self.solver = shutil.which("depqbf")
        self.verbs += ["extract"] * 4 if self.solver else []

    def options(self, verb):
        """Options of a command."""
        rng, found = self.rng, []
        if verb == "simplify":
            for name, most in (("budget", 30), ("grow", 20), ("expand", 60)):
                found += [f"--{name}={rng.randint(0, most)}"] if rng.random() < 0.25 else []
            found += ["--plain"] if rng.random() < 0.2 else []
            found += [f"--time={rng.randint(1000, 2**32 - 1)}"] if rng.random() < 0.1 else []
        elif verb in ("validate", "solve") and rng.random() < 0.4:
            found.append(f"--budget={rng.randint(0, 12)}")
        elif verb == "miter" and rng.random() < 0.5:
            found.append("--herbrand")
        elif verb in ("check", "annotate") and rng.random() < 0.5:
            parts = rng.randint(1, 4)
            found.append(f"--part={rng.randint(1, parts)}/{parts}")
        elif verb in ("gen", "demo"):
            found = [str(rng.randrange(2**64)), str(rng.randint(1, 9 if verb == "demo" else 400))]
        return found

    def run_of(self, text):
        """OUT and LOG for a formula, by the program or by chance."""
        if self.rng.random() < 0.35:
            log, end = making.walk(self.rng, formulas.read(text))
            return end, log
        answer = self.player.play(Case("simplify", self.options("simplify"), {"IN": text}, None))
        return answer.files.get("OUT", b""), answer.files.get("LOG", b"")

    def circuits_for(self, text, owner):
        given = formulas.read(text)
        if self.rng.random() < 0.95:
            return making.some_circuits(self.rng, given, owner)
        return making.some_circuits(self.rng, given, "e" if owner == "a" else "a")

    def trace_for(self, text):
        self.player.clear()
        with open(self.player.path("IN"), "wb") as out:
            out.write(formulas.canonical(formulas.read(text)))
        words = [self.solver, "--trace=qrp", "--dep-man=simple", "--traditional-qcdcl", "--no-qbce-dynamic", "IN"]
        return subprocess.run(words, cwd=self.player.folder, stdout=subprocess.PIPE, stderr=subprocess.DEVNULL, check=False).stdout

    def proof_for(self, text, options):
        """A proof of a formula, as a log or in bytes; `options` may get a word."""
        rng = self.rng
        log = making.refutation(rng, formulas.read(text)) if rng.random() < 0.7 else self.run_of(text)[1]
        if rng.random() < 0.5:
            options += ["--binary"] if rng.random() < 0.3 else []
            return making.in_bytes(log)
        options += ["--binary"] if rng.random() < 0.03 else []
        return log

    def right_files(self, verb, owner, options):
        """Files of a command, none of them spoiled; the circuits are the owner's."""
        text = making.text_of(self.rng, making.formula(self.rng))
        files = {"IN": text} if "IN" in READS[verb] else {}
        if "LOG" in READS[verb]:
            files["OUT"], files["LOG"] = self.run_of(text)
            if options and verb == "check" and self.rng.random() < 0.7:
                files["LOG"] = making.padding(self.rng, formulas.read(text)) + files["LOG"]
            if verb != "annotate" and self.rng.random() < 0.5:
                hinted = self.player.play(Case("annotate", [], dict(files), None)).files.get("HINTED")
                files["LOG"] = hinted if hinted is not None else files["LOG"]
        if verb == "apply":
            del files["OUT"]
            if self.rng.random() < 0.4:
                files["LOG"] = files["LOG"][: self.rng.randint(0, len(files["LOG"]))]
        if verb == "rebuild":
            files["SKOLEM"] = self.circuits_for(files["OUT"], owner)
        elif verb == "refute":
            files["HERBRAND"] = self.circuits_for(files["OUT"], owner)
        elif verb in ("validate", "miter"):
            files["CERT"] = self.circuits_for(text, owner)
        elif verb == "extract":
            files["TRACE"] = self.trace_for(text)
        elif verb in ("disprove", "certified", "shown"):
            files["PROOF"] = self.proof_for(text, options)
            if self.rng.random() < 0.3:
                hinted = self.player.play(Case("shown", list(options), dict(files), None)).files.get("HINTED")
                files["PROOF"] = hinted if hinted is not None else files["PROOF"]
                options[:] = options if hinted is None else []
        return files

    def spoil(self, files):
        """Spoils some of the files."""
        rng = self.rng
        for name in rng.sample(sorted(files), min(len(files), rng.choice((1, 1, 1, 2)))):
            way = rng.random()
            if way < 0.05:
                files[name] = rng.choice((None, FOLDER, b""))
            elif name == "LOG" and not logs.is_hinted(files[name]):
                files[name] = making.spoil_log(rng, files[name], formulas.read(files["IN"]) if is_formula(files["IN"]) else formulas.Formula([], []))
            elif name == "PROOF" and rng.random() < 0.5:
                files[name] = making.spoil_bytes(rng, files[name])
            else:
                files[name] = making.spoil(rng, files[name])

    def left(self, verb):
        """The written files that nobody wants."""
        if verb not in ("simplify", "rebuild", "refute", "extract", "solve") or self.rng.random() < 0.8:
            return frozenset()
        return frozenset(name for name in WRITES[verb] if name != "OUT" or verb == "solve" if self.rng.random() < 0.7)

    def fault(self, verb, left):
        """A written file that can't be, or a size that none may pass."""
        rng = self.rng
        names = [name for name in WRITES[verb] if name not in left]
        if not names or rng.random() > 0.06:
            return None
        if rng.random() < 0.4:
            return ("size", rng.choice((0, 1, 10, 40, 100)))
        return (rng.choice(names), rng.choice((FULL, NOWHERE, "folder")))

    def case(self):
        verb = self.verb or self.rng.choice(self.verbs)
        options = self.options(verb)
        files = self.right_files(verb, "a" if verb == "refute" or "--herbrand" in options else "e", options)
        if files and self.rng.random() < 0.55:
            self.spoil(files)
        left = self.left(verb)
        return Case(verb, options, files, self.fault(verb, left), left)


def is_formula(held):
    try:
        return isinstance(held, bytes) and formulas.read(held) is not None
    except formulas.Refused:
        return False


def smaller(text):
    """Texts with fewer lines or words."""
    lines = text.splitlines(keepends=True)
    size = len(lines)
    while size:
        for at in range(0, len(lines), size):
            yield b"".join(lines[:at] + lines[at + size:])
        size //= 2
    for at, line in enumerate(lines):
        words = line.split(b" ")
        for place in range(len(words)):
            yield b"".join(lines[:at] + [b" ".join(words[:place] + words[place + 1:])] + lines[at + 1:])


def smaller_cases(case):
    """Cases with fewer options, lines or words, one after the other: all of them at once would not fit into memory."""
    for word in case.options:
        if word.startswith("--"):
            yield case._replace(options=[o for o in case.options if o != word])
    for name, held in case.files.items():
        if isinstance(held, bytes):
            for text in smaller(held):
                yield case._replace(files={**case.files, name: text})


def shrink(player, case, tries=2000):
    """A small case with a difference still."""
    going = True
    while going and tries > 0:
        going = False
        for candidate in smaller_cases(case):
            tries -= 1
            if tries <= 0:
                break
            if judge(candidate, player.play(candidate)):
                case, going = candidate, True
                break
    return case


def keep(player, case, folder):
    """Keeps a case with a difference."""
    answer = player.play(case)
    os.makedirs(folder, exist_ok=True)
    for name, held in case.files.items():
        if isinstance(held, bytes):
            with open(os.path.join(folder, name), "wb") as out:
                out.write(held)
    said = [" ".join(player.words(case)), f"fault: {case.fault}", f"came {answer.status} '{answer.line}'", judge(case, answer) or "no difference any more"]
    with open(os.path.join(folder, "what"), "w", encoding="utf-8") as out:
        out.write("\n".join(said) + "\n")
    return said


def over_size(case, answer):
    """Whether an answer to a case with a limit on sizes is at odds with it."""
    if not case.fault or case.fault[0] != "size":
        return None
    most = max([len(t) for t in answer.files.values()], default=0)
    if most > case.fault[1]:
        return "wanted no file above the limit"
    if answer.status == 5 and most < case.fault[1]:
        return "wanted no write fault below the limit"
    return None


def settled_again(player, case, answer):
    """Whether a settled formula settles at once."""
    if case.verb != "simplify" or answer.status != 0 or case.fault:
        return None
    again = player.play(case._replace(files={"IN": answer.files["OUT"]}, options=[o for o in case.options if "budget" not in o], left=frozenset()))
    return None if again.files == {"OUT": answer.files["OUT"], "LOG": b""} else "wanted no rule on a settled formula"


def play(words, counts):
    """Plays cases; the first one with a difference is kept."""
    player = Player(PROGRAM)
    end = time.monotonic() + words.seconds
    try:
        for number in range(words.runs):
            if time.monotonic() > end:
                break
            maker = Maker(random.Random(f"{words.seed} {number}"), player, words.verb)
            case = maker.case()
            answer = player.play(case)
            wrong = judge(case, answer) or over_size(case, answer) or settled_again(player, case, answer)
            counts[kind_of(case), answer.status] += 1
            if wrong:
                print(f"case {number} of seed {words.seed}: {wrong}, came {answer.status} '{answer.line}'", flush=True)
                print("\n".join(keep(player, shrink(player, case), words.keep)))
                return False
    except KeyboardInterrupt:
        pass
    finally:
        player.close()
    return True


def kind_of(case):
    """What a case is counted as: its command, the option that makes it another one, and whether a file is left out."""
    words = [o.split("=")[0] for o in case.options if o.startswith(("--part", "--binary", "--herbrand"))]
    return " ".join([case.verb, *words, *(["left out"] if case.left else [])])


def show(counts, program):
    """A line for each kind of case: how many there were, and how many ended with which status; then what the statuses mean together."""
    for kind in sorted({kind for kind, _ in counts}):
        row = sorted((status, n) for (k, status), n in counts.items() if k == kind)
        print(f"{kind:20} {sum(n for _, n in row):8}   " + "  ".join(f"{status}: {n}" for status, n in row))
    sums = collections.Counter()
    for (_, status), n in counts.items():
        sums["accepted" if status in (0, 10, 20) else "faults" if status in (4, 5, 6) else "out of budget" if status in (2, 12) else "refused"] += n
    print(f"{'all':20} {sum(counts.values()):8}   " + "  ".join(f"{word}: {n}" for word, n in sorted(sums.items())))
    with open(program, "rb") as text:
        print(f"program {hashlib.sha256(text.read()).hexdigest()}")


def main():
    parser = argparse.ArgumentParser(description=__doc__, formatter_class=argparse.RawDescriptionHelpFormatter)
    parser.add_argument("--seed", type=int, default=1)
    parser.add_argument("--runs", type=int, default=2000)
    parser.add_argument("--seconds", type=float, default=3600)
    parser.add_argument("--verb", choices=sorted(READS))
    parser.add_argument("--keep", default="fuzz-difference")
    words = parser.parse_args()
    resource.setrlimit(resource.RLIMIT_AS, (MOST_MEMORY, MOST_MEMORY))
    counts = collections.Counter()
    right = play(words, counts)
    show(counts, PROGRAM)
    sys.exit(0 if right else 1)


if __name__ == "__main__":
    main()
