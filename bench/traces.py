#!/usr/bin/env python3
"""Tries `extract` on traces that DepQBF writes: what the program says is compared with bench/judge_traces.py, and the circuits that it
writes are judged by bench/decide_circuits.py.

Usage: bench/traces.py random FROM TO [WAY..]       random formulas of all shapes, circuits judged by all values
       bench/traces.py larger FROM TO [WAY..]       larger ones, as in the family equality with noise
       bench/traces.py mutated FROM TO              right traces with one to three changes, twelve for each formula
       bench/traces.py folder FOLDER [WAY..]        the formulas of a folder, two seconds each; circuits judged by a SAT solver
       bench/traces.py chain SECONDS FORMULA..      a certificate of each: from IN's trace, and from OUT's, carried back

WAY is plain (--traditional-qcdcl), eager (--no-lazy-qpup), or either with `-long` behind (--long-dist-res). BESIDE names another program, called in
the same way (IN TRACE CERT), whose line is then compared too. It counts what was said, lists what is wrong, keeps the files of that in bench/out/traces/, and ends with 1 where something is.
"""
import os
import random
import sys

from decide_circuits import decide
from judge_traces import judge
from trials import CELDRINN, Trial, get, place, put, run, text_of
from words import split

BESIDE = os.environ.get("BESIDE")
WAYS = {"plain": ["--traditional-qcdcl"], "eager": ["--no-lazy-qpup"]}
WAYS.update({f"{name}-long": [*words, "--long-dist-res"] for name, words in list(WAYS.items())})
VERDICTS = {10: "true", 20: "false"}


def trace_of(formula, way, seconds=None):
    """The status of DepQBF; its trace is the file `trace`."""
    words = ["depqbf", "--trace=qrp", "--dep-man=simple", "--no-qbce-dynamic", *WAYS[way], formula]
    with open(place("trace"), "wb") as out:
        return run(words, out, seconds)[0]


def signed(rng, variable):
    return variable * rng.choice([1, -1])


def random_prefix(rng):
    """Blocks that may be empty, or of the same quantifier as the one before; all variables; the greatest."""
    prefix, used, greatest, count, quantifier = [], [], 0, rng.randint(0, 6), rng.choice("ae")
    for _ in range(count):
        size = rng.choice([0, 1, 1, 2, 2, 3, 4])
        block = list(range(greatest + 1, greatest + size + 1))
        greatest += size
        rng.shuffle(block)
        prefix.append((quantifier, block))
        used += block
        if rng.random() < 0.93:
            quantifier = "ae"[quantifier == "a"]
    if rng.random() < 0.3:  # free variables
        size = rng.randint(1, 3)
        used += range(greatest + 1, greatest + size + 1)
        greatest += size
    if rng.random() < 0.3:  # numbers exchanged
        other = list(range(1, greatest + 1))
        rng.shuffle(other)
        prefix = [(q, [other[v - 1] for v in block]) for q, block in prefix]
    return prefix, used, greatest


def random_clause(rng, greatest, existentials):
    size = rng.choice([1, 2, 2, 3, 3, 3, 4])
    if rng.random() < 0.3:
        clause = [signed(rng, v) for v in rng.choices(range(1, greatest + 1), k=size)]
    else:
        clause = [signed(rng, v) for v in rng.sample(range(1, greatest + 1), min(size, greatest))]
    if existentials and rng.random() < 0.8:
        clause.append(rng.choice(existentials) * rng.choice([1, -1]))
    rng.shuffle(clause)
    return clause


def random_formula(seed):
    rng = random.Random(seed)
    prefix, used, greatest = random_prefix(rng)
    universals = {v for q, block in prefix if q == "a" for v in block}
    if not used:
        return prefix, greatest, [[] for _ in range(rng.choice([0, 0, 1]))]
    shape = rng.random()
    if shape < 0.15:
        count = 0 if shape < 0.03 else rng.randint(1, 3)
    else:
        count = rng.randint(max(1, int(0.8 * greatest)), int(3.2 * greatest) + 1)
    existentials = [v for v in used if v not in universals]
    clauses = [random_clause(rng, greatest, existentials) for _ in range(count)]
    if rng.random() < 0.02:
        clauses.insert(rng.randint(0, len(clauses)), [])
    if rng.random() < 0.05 and clauses:
        clauses.append(list(rng.choice(clauses)))
    return prefix, greatest, clauses


def larger_formula(seed):
    rng = random.Random(seed)
    prefix, greatest, quantifier = [], 0, rng.choice("eeea")
    for _ in range(rng.choice([2, 3, 3, 3, 4, 5])):
        size = rng.randint(2, 5)
        prefix.append((quantifier, list(range(greatest + 1, greatest + size + 1))))
        greatest += size
        quantifier = "ae"[quantifier == "a"]
    if prefix[-1][0] == "a":
        size = rng.randint(3, 6)
        prefix.append(("e", list(range(greatest + 1, greatest + size + 1))))
        greatest += size
    inner = prefix[-1][1]
    universals = [v for q, block in prefix if q == "a" for v in block]
    outer = [v for q, block in prefix[:-1] if q == "e" for v in block]
    clauses = []
    for t in inner:
        if rng.random() < 0.7 and universals and outer:
            x, u = rng.choice(outer), rng.choice(universals)
            clauses += [[x, u, -t], [-x, rng.choice([u, -u, -u]), -t]]
    if rng.random() < 0.8:
        clauses.append(list(inner))
    for _ in range(rng.randint(0, greatest)):
        size = min(greatest, rng.choice([3, 3, 4, 4, 5]))
        clauses.append([signed(rng, v) for v in rng.sample(range(1, greatest + 1), size)])
    return prefix, greatest, clauses


def changed(rng, lines, greatest):
    """A line goes, is doubled or exchanged; a number is negated, another one, gone, or there besides; another verdict."""
    at, kind = rng.randrange(len(lines)), rng.randrange(14)
    words = lines[at].split()
    numbers = [k for k, word in enumerate(words) if word.lstrip("-").isdigit()]
    if kind == 0:
        del lines[at]
    elif kind == 1:
        lines.insert(at, lines[rng.randrange(len(lines))])
    elif kind == 2:
        other = rng.randrange(len(lines))
        lines[at], lines[other] = lines[other], lines[at]
    elif kind == 12:
        lines[-1] = rng.choice(["r SAT", "r UNSAT", "r UNKNOWN", "r", "SAT", "", lines[-1]])
    elif kind in (10, 11):
        words.insert(rng.randint(0, len(words)), str(rng.choice([1, -1, 1]) * rng.randint(1, greatest + 1)))
        lines[at] = " ".join(words)
    elif numbers:
        chosen = rng.choice(numbers)
        if kind in (7, 8, 9):
            del words[chosen]
        elif kind in (3, 4):
            words[chosen] = str(-int(words[chosen]))
        elif kind in (5, 6):
            words[chosen] = str(rng.choice([1, -1]) * rng.randint(0, greatest + 1))
        else:
            words[chosen] = str(rng.randint(1, len(lines)))
        lines[at] = " ".join(words)


class Traces(Trial):
    def __init__(self):
        super().__init__("traces", ("in", "trace", "cert"))

    def compare(self, name, wanted, seconds):
        """Runs `extract` on the files `in` and `trace`; what it says is to be what the judge says, with right circuits."""
        status, said = run([CELDRINN, "extract", place("in"), place("trace"), place("cert")])
        kind = said if status in (1, 12) else said.split(" ")[0]
        statuses = {"true": 10, "false": 20, "unknown": 12}
        if status != statuses.get(wanted, 1) or (wanted and kind != wanted):
            return self.complain(name, f"says '{said}' with status {status}, not '{wanted}'")
        if status in (10, 20):
            found = decide(get("in"), get("cert"), seconds, "e" if status == 10 else "a")
            if found == "unknown":
                return "untested"
            if found != {10: "skolem", 20: "herbrand"}[status]:
                return self.complain(name, f"circuits of '{said}': {found}")
        if BESIDE and "cause 9" not in said:
            other = run([BESIDE, place("in"), place("trace"), place("other")])[1]
            if other.split(" ")[0] != said.split(" ")[0]:
                return self.complain(name, f"says '{said}', and the other program '{other}'")
        return " ".join(said.split(" ")[:1] + said.split(" ")[3:]) if status == 1 else kind


def try_formulas(trial, make, first, last, ways):
    for seed in range(first, last):
        prefix, greatest, clauses = make(seed)
        more = random.Random(seed).choice([0, 0, 0, 2]) if make is random_formula else 0
        put("in", text_of(prefix, greatest + more, clauses))
        for way in ways:
            status = trace_of(place("in"), way)
            wanted = judge(get("in"), get("trace"))
            if way != "eager-long" and wanted != VERDICTS.get(status):
                trial.complain(f"{seed}-{way}", f"DepQBF ends with {status}, and its trace: {wanted}")
            said = trial.compare(f"{seed}-{way}", wanted, None)
            if status == 10 and said == "true" and run([CELDRINN, "validate", place("in"), place("cert")])[1] != "valid":
                trial.complain(f"{seed}-{way}", "validate says that the circuits are not right")
            trial.counts[way, said] += said is not None


def try_mutated(trial, first, last):
    for seed in range(first, last):
        rng = random.Random(seed)
        prefix, greatest, clauses = random_formula(seed % 3000)
        put("in", text_of(prefix, greatest, clauses))
        trace_of(place("in"), rng.choice(["plain", "eager", "plain-long", "eager-long"]))
        right = get("trace").decode().splitlines()
        for number in range(12):
            lines = list(right)
            for _ in range(rng.choice([1, 1, 2, 3])):
                changed(rng, lines, greatest)
            put("trace", ("\n".join(lines) + "\n").encode())
            wanted = judge(get("in"), get("trace"))
            said = trial.compare(f"mutated-{seed}-{number}", wanted, None)
            if said is not None:
                trial.counts[said] += 1
                trial.counts["all refused"] += said.startswith("refused")


def try_folder(trial, folder, ways):
    for name in sorted(os.listdir(folder)):
        put("in", get(os.path.join(folder, name)))
        for way in ways:
            status = trace_of(place("in"), way, 2)
            if status not in VERDICTS:
                trial.counts[way, "no answer of DepQBF"] += 1
                continue
            wanted = VERDICTS[status] if way != "eager-long" else None
            said = trial.compare(f"{name}-{way}", wanted or judge(get("in"), get("trace")), 10)
            trial.counts[way, said] += said is not None


def certificate(formula, seconds, bounds):
    """One way to a certificate: what `simplify`, DepQBF, `extract`, and `rebuild` or `refute` say, and whether the circuits are right."""
    given, steps, status = formula, [], 0
    if bounds is not None:
        status, said = run([CELDRINN, "simplify", formula, place("out"), place("log"), *bounds], seconds=10)
        steps, given = [said], place("out")
        if status not in (0, 10, 20):
            return [*steps, "stopped"], "none"
    if status in VERDICTS:
        put("cert", b"aag 0 0 0 0 0\n")
    else:
        for way in ("plain", "eager"):
            status = trace_of(given, way, seconds)
            if status in VERDICTS:
                break
        else:
            return [*steps, "no answer"], "none"
        length = os.path.getsize(place("trace"))
        status, said = run([CELDRINN, "extract", given, place("trace"), place("cert")])
        steps += [f"{way}, {length} bytes", said]
        if status not in VERDICTS:
            return steps, "REFUSED"
    return finish(formula, bounds is not None, status, steps)


def finish(formula, is_carried, status, steps):
    cert = place("cert")
    if is_carried:
        command = {10: "rebuild", 20: "refute"}[status]
        cert = place("carried")
        carried, said = run([CELDRINN, command, formula, place("out"), place("log"), place("cert"), cert], seconds=30)
        steps = [*steps, said]
        if carried:
            return steps, "extended" if carried == 8 else "WRONG"
    steps = [*steps, f"{os.path.getsize(cert)} bytes"]
    if status == 10 and run([CELDRINN, "validate", formula, cert], seconds=2)[1] == "valid":
        return steps, "tested"
    found = decide(get(formula), get(cert), 5, "e" if status == 10 else "a")
    return steps, {"skolem": "tested", "herbrand": "tested", "unknown": "untested"}.get(found, "WRONG")


def try_chain(trial, seconds, formulas):
    ways = {"IN": None, "OUT": [], "OUT, large bounds": ["--grow=200", "--expand=64"]}
    for formula in formulas:
        ends = []
        for name, bounds in ways.items():
            steps, end = certificate(formula, seconds, bounds)
            print(os.path.basename(formula), name, *steps, end, sep="; ", flush=True)
            trial.counts[name, end] += 1
            trial.wrong += end in ("WRONG", "REFUSED")
            ends.append(end)
        trial.counts["any", next(end for end in ("tested", "untested", "extended", "none", *ends) if end in ends)] += 1


def main():
    (kind, *words), _ = split(__doc__, 2)
    makers = {"random": (random_formula, ["plain"]), "larger": (larger_formula, ["plain-long", "eager-long"])}
    with Traces() as trial:
        if kind in makers:
            make, ways = makers[kind]
            try_formulas(trial, make, int(words[0]), int(words[1]), words[2:] or ways)
        elif kind == "mutated":
            try_mutated(trial, int(words[0]), int(words[1]))
        elif kind == "folder":
            try_folder(trial, os.path.abspath(words[0]), words[1:] or ["plain", "eager"])
        elif kind == "chain":
            try_chain(trial, int(words[0]), map(os.path.abspath, words[1:]))
        else:
            sys.exit(__doc__)
        sys.exit(trial.close())


if __name__ == "__main__":
    main()
