#!/usr/bin/env python3
"""Tries `miter`: clauses that are false exactly where circuits are Skolem (Herbrand) functions of a formula.

Usage: bench/mitering.py random FROM TO                 random formulas with circuits of both kinds, right and wrong
       bench/mitering.py traced FROM TO                 those that `extract` makes of DepQBF's traces, as they are and with a gate changed
       bench/mitering.py scale SECONDS BITS COPIES ..   adders of so many bits, over 2 BITS inputs, so many copies of each; right and wrong

What CaDiCaL says of the clauses is compared with `validate` (Skolem functions) and with all values (bench/decide_circuits.py); a model's
values of the others' variables are tested by evaluation. CELDRINN names the program. Of `scale` it reports sizes, and processor seconds of
`miter`, CaDiCaL and `validate`, each within SECONDS. It lists what is wrong, keeps the files of that in bench/out/miters/, and ends with 1.
"""
import os
import random
import sys

from decide_circuits import Circuits, by_all_values, misfit
from judge_traces import read_formula
from traces import VERDICTS, random_formula, trace_of
from trials import CELDRINN, Trial, get, measured, place, put, run, text_of
from words import split


def cert_of(greatest, inputs, outputs, gates):
    """A circuit file; inputs are pairs of variable and literal, as outputs are."""
    lines = [f"aag {greatest} {len(inputs)} 0 {len(outputs)} {len(gates)}"]
    lines += [str(literal) for _, literal in inputs] + [str(literal) for _, literal in outputs]
    lines += [" ".join(map(str, gate)) for gate in gates]
    lines += [f"i{k} {v}" for k, (v, _) in enumerate(inputs)] + [f"o{k} {v}" for k, (v, _) in enumerate(outputs)]
    return ("\n".join(lines) + "\n").encode()


def small_formula(rng):
    """A few variables in any order, clauses that may be empty or tautologies."""
    variables = rng.sample(range(1, 12), rng.randint(2, 8))
    prefix = [(rng.choice("ae"), [v]) for v in variables]
    signed = lambda v: v if rng.random() < 0.5 else -v
    sizes = [min(len(variables), rng.choice((1, 2, 2, 3, 3, 3))) for _ in range(rng.randint(0, 6))]
    clauses = [[signed(v) for v in rng.sample(variables, size)] for size in sizes]
    if rng.random() < 0.1:
        clauses.append([variables[0], -variables[0]])
    if rng.random() < 0.05:
        clauses.append([])
    return prefix, clauses


def random_circuits(rng, prefix, owner):
    """Circuits of the owner's variables, each over what stands before it; perhaps an input that is not read, and gates that nobody needs."""
    inputs = [v for q, v in prefix if q != owner]
    depth = [-1] + [at for at, (q, _) in enumerate(prefix) if q != owner]
    if rng.random() < 0.2:
        inputs.append(rng.choice([v for v in range(1, 20) if v not in inputs]))
        depth.append(len(prefix))
    gates = []
    for _ in range(rng.randint(0, 6)):
        left, right = rng.randrange(2 * len(depth)), rng.randrange(2 * len(depth))
        gates.append((2 * len(depth), left, right))
        depth.append(max(depth[left // 2], depth[right // 2]))
    fitting = lambda at: [literal for literal in range(2 * len(depth)) if depth[literal // 2] < at]
    outputs = [(v, rng.choice(fitting(at))) for at, (q, v) in enumerate(prefix) if q == owner]
    return cert_of(len(depth) - 1, [(v, 2 * k + 2) for k, v in enumerate(inputs)], outputs, gates)


class Miters(Trial):
    def __init__(self):
        super().__init__("miters", ("in", "cert", "cnf"))

    def is_witness(self, prefix, clauses, owner, circuits, model):
        """Whether the model's values of the others' variables are such that the owner loses."""
        value = {v: v in model for q, v in prefix if q != owner}
        node = {0: False, **{x // 2: value.get(v, v in model) for v, x in circuits.inputs.items()}}
        row = lambda literal: node[literal // 2] != bool(literal & 1)
        for gate, left, right in circuits.gates:
            node[gate // 2] = row(left) and row(right)
        value.update((v, row(x)) for v, x in circuits.outputs.items())
        return all(any(value[abs(l)] == (l > 0) for l in c) for c in clauses) != (owner == "e")

    def decide(self, name, owner):
        """Decides the files `in` and `cert` in all ways."""
        prefix, clauses = read_formula(get("in"))
        circuits = Circuits(get("cert"))
        fits = misfit(prefix, owner, circuits) is None
        wins = fits and by_all_values(prefix, clauses, owner, circuits)
        options = ["--herbrand"] if owner == "a" else []
        status, said = run([CELDRINN, "miter", place("in"), place("cert"), place("cnf"), *options])
        if (status == 0) != fits:
            return self.complain(name, f"miter says '{said}' with status {status}")
        if fits:
            if said.split(" ") != ["written", get("cnf").split()[3].decode()]:
                self.complain(name, f"miter says '{said}' of {get('cnf').splitlines()[0]}")
            answer, model = run(["cadical", "-q", place("cnf")])
            if answer != (20 if wins else 10):
                return self.complain(name, f"CaDiCaL ends with {answer}, by all values it is {wins}")
            chosen = {int(word) for line in model.splitlines() if line.startswith("v") for word in line.split()[1:]}
            if answer == 10 and not self.is_witness(prefix, clauses, owner, circuits, chosen):
                self.complain(name, "the model's values lose nothing")
        if owner == "e":
            said = run([CELDRINN, "validate", place("in"), place("cert")])[1].split(" ")[0]
            if said != ("valid" if wins else "invalid" if fits else "circuits"):
                self.complain(name, f"validate says '{said}', by all values it is {wins}")
        self.counts[{"e": "Skolem", "a": "Herbrand"}[owner], "right" if wins else "wrong" if fits else "unfit"] += 1


def try_random(trial, first, last):
    for seed in range(first, last):
        rng = random.Random(seed)
        prefix, clauses = small_formula(rng)
        put("in", text_of(prefix, 11, clauses))
        whole = read_formula(get("in"))[0]
        for owner in "ea":
            put("cert", random_circuits(rng, whole, owner))
            trial.decide(f"random-{seed}-{owner}", owner)


def try_traced(trial, first, last):
    for seed in range(first, last):
        rng = random.Random(seed)
        prefix, greatest, clauses = random_formula(seed)
        put("in", text_of(prefix, greatest, clauses))
        status = trace_of(place("in"), "plain")
        if status not in VERDICTS or run([CELDRINN, "extract", place("in"), place("trace"), place("cert")])[0] != status:
            trial.complain(f"traced-{seed}", f"DepQBF ends with {status}")
            continue
        owner = {10: "e", 20: "a"}[status]
        trial.decide(f"traced-{seed}", owner)
        right = Circuits(get("cert"))
        if right.gates:
            at = rng.randrange(len(right.gates))
            gate, left, other = right.gates[at]
            right.gates[at] = (gate, left ^ 1, other)
        elif right.outputs:
            variable = rng.choice(sorted(right.outputs))
            right.outputs[variable] ^= 1
        put("cert", cert_of(right.greatest, list(right.inputs.items()), list(right.outputs.items()), right.gates))
        trial.decide(f"traced-{seed}-changed", owner)


class Adders:
    """For all x and y the sums by two adders of other structure agree; an existential for each bit of each, or for each gate."""

    def __init__(self, bits, copies, is_wrong):
        self.top, self.gates, self.clauses, self.outputs = 2 * bits, [], [], []
        rng = random.Random(bits)
        for _ in range(copies):
            x, y = list(range(2, 2 * bits + 2, 2)), list(range(2 * bits + 2, 4 * bits + 2, 2))
            pairs = list(zip(x, y))
            rng.shuffle(pairs)
            one, other = self.sums(pairs, False), self.sums([pair[::-1] for pair in pairs], True)
            for left, right in zip(one, other):
                self.outputs += [left, right]
                p = 2 * bits + len(self.outputs)
                self.clauses += [[1 - p, p], [p - 1, -p]]
        if is_wrong:
            self.clauses[-1][1] *= -1
        self.bits = bits

    def both(self, a, b):
        self.top += 1
        self.gates.append((2 * self.top, a, b))
        return 2 * self.top

    def either(self, a, b):
        return self.both(a ^ 1, b ^ 1) ^ 1

    def differ(self, a, b):
        return self.either(self.both(a, b ^ 1), self.both(a ^ 1, b))

    def sums(self, pairs, is_turned):
        out, carry = [], 0
        for x, y in pairs:
            if is_turned:
                out.append(self.differ(x, self.differ(y, carry)))
                carry = self.either(self.either(self.both(x, y), self.both(x, carry)), self.both(y, carry))
            else:
                half = self.differ(x, y)
                out.append(self.differ(half, carry))
                carry = self.either(self.both(x, y), self.both(half, carry))
        return [*out, carry]

    def write(self):
        inputs = range(1, 2 * self.bits + 1)
        names = range(2 * self.bits + 1, 2 * self.bits + 1 + len(self.outputs))
        put("in", text_of([("a", inputs), ("e", names)], names[-1], self.clauses))
        put("cert", cert_of(self.top, [(v, 2 * v) for v in inputs], list(zip(names, self.outputs)), self.gates))


def try_scale(trial, seconds, sizes):
    print("| Inputs | Gates | | `miter` | OUT | CaDiCaL | Steps of its proof | `validate` |\n|---|---|---|---|---|---|---|---|")
    for bits, copies in zip(sizes[::2], sizes[1::2]):
        for is_wrong in (False, True):
            adders = Adders(bits, copies, is_wrong)
            adders.write()
            status, _, taken = measured([CELDRINN, "miter", place("in"), place("cert"), place("cnf")])
            peak = run(["/usr/bin/time", "-q", "-f", "%M", "-o", place("peak"), CELDRINN, "miter", place("in"), place("cert"), place("cnf")]) and int(get("peak"))
            answer, _, solving = measured(["cadical", "-q", "-n", "--no-binary", place("cnf"), place("proof")], seconds=seconds)
            deciding, said, looking = measured([CELDRINN, "validate", place("in"), place("cert")], -1, seconds)
            said = said.split(" ")[0] if deciding in (0, 9) else "stopped"
            if status or answer in VERDICTS and answer != (10 if is_wrong else 20) or said not in ("stopped", "invalid" if is_wrong else "valid"):
                trial.complain(f"scale-{bits}-{copies}-{is_wrong}", f"miter {status}, CaDiCaL {answer}, validate {said}")
            solved = {10: "model", 20: "none"}.get(answer, "stopped")
            with open(place("proof"), "rb") as proof:
                steps = sum(1 for _ in proof) if answer == 20 else "-"
            cnf = " ".join(get("cnf").split(b"\n", 1)[0].decode().split()[2:])
            print(f"| {2 * bits} | {len(adders.gates):,} | {'wrong' if is_wrong else 'right'} | {taken:.2f} s, {peak // 1024} MiB | {cnf}, {os.path.getsize(place('cnf')) / 1e6:.1f} MB", end=" ")
            print(f"| {solved}, {solving:.2f} s | {steps} | {said}, {looking:.2f} s |", flush=True)


def main():
    (kind, *numbers), _ = split(__doc__, 3)
    numbers = list(map(int, numbers))
    with Miters() as trial:
        if kind == "scale":
            try_scale(trial, numbers[0], numbers[1:])
        else:
            {"random": try_random, "traced": try_traced}[kind](trial, *numbers)
        sys.exit(trial.close())


if __name__ == "__main__":
    main()
