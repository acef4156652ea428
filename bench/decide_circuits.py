#!/usr/bin/env python3
"""Says of circuits, as `rebuild`, `refute` and `extract` write them, whether they are Skolem or Herbrand functions of a formula: the
names, what each output reads, and then all values of the inputs at once, or a call of CaDiCaL.

Usage: bench/decide_circuits.py IN CERT [--sat=SECONDS]

Outputs that are IN's existentials are to be Skolem functions, those that are its universals Herbrand functions. It says `skolem`, `herbrand`,
`wrong: ..` or `unknown`. It shares nothing with the program.
"""
import subprocess

from judge_traces import read_formula
from words import split


class Circuits:
    def __init__(self, text):
        lines = text.decode().split("\n")
        self.greatest, inputs, _, outputs, gates = map(int, lines[0].split()[1:6])
        numbers = iter(lines[1:])
        ins = [int(next(numbers)) for _ in range(inputs)]
        outs = [int(next(numbers)) for _ in range(outputs)]
        self.gates = [tuple(map(int, next(numbers).split())) for _ in range(gates)]
        self.inputs, self.outputs = {}, {}
        for line in numbers:
            if line == "c":
                break
            if line:
                symbol, name = line.split()
                kind = (self.inputs, ins) if symbol[0] == "i" else (self.outputs, outs)
                kind[0][int(name)] = kind[1][int(symbol[1:])]
        self.sort()

    def sort(self):
        """Puts the gates in an order in which operands come first."""
        of, done, order = {gate[0] // 2: gate for gate in self.gates}, set(), []
        for gate in self.gates:
            todo = [gate[0] // 2]
            while todo:
                node = todo[-1]
                wanted = [x // 2 for x in of[node][1:] if x // 2 in of and x // 2 not in done]
                if node not in done and wanted:
                    todo += wanted
                    continue
                if node not in done:
                    done.add(node)
                    order.append(of[node])
                todo.pop()
        self.gates = order


def misfit(prefix, owner, circuits):
    """Why circuits are none of the owner's: a name, or what one reads; nothing where they are."""
    place = {variable: at for at, (_, variable) in enumerate(prefix)}
    own = {v for q, v in prefix if q == owner}
    if set(circuits.outputs) != own:
        return "other outputs"
    depth = {name // 2: len(place) if v in own else place.get(v, len(place)) for v, name in circuits.inputs.items()}
    for gate, left, right in circuits.gates:
        depth[gate // 2] = max(depth.get(left // 2, -1), depth.get(right // 2, -1))
    late = [v for v, literal in circuits.outputs.items() if depth.get(literal // 2, -1) > place[v]]
    return f"{late[0]} reads what does not stand before it" if late else None


def by_all_values(prefix, clauses, owner, circuits):
    """Whether the owner wins for all values: each node is a row of bits, one for each choice of the others' values."""
    others = [v for q, v in prefix if q != owner]
    width = 1 << len(others)
    full, value = (1 << width) - 1, {}
    for at, variable in enumerate(others):
        half = 1 << at
        block = ((1 << half) - 1) << half
        value[variable] = block * (full // ((1 << 2 * half) - 1))
    node = {0: 0, **{name // 2: value.get(v, 0) for v, name in circuits.inputs.items()}}
    row = lambda literal: node[literal // 2] ^ (full if literal & 1 else 0)
    for gate, left, right in circuits.gates:
        node[gate // 2] = row(left) & row(right)
    value.update((v, row(literal)) for v, literal in circuits.outputs.items())
    holds = full
    for clause in clauses:
        some = 0
        for literal in clause:
            some |= value[abs(literal)] ^ (0 if literal > 0 else full)
        holds &= some
    return holds == full if owner == "e" else holds == 0


def by_sat(prefix, clauses, owner, circuits, seconds):
    """The same by CaDiCaL: True, False, or None for no answer."""
    top = circuits.greatest + 1
    number = lambda x: (top if x else -top) if x < 2 else (-(x // 2) if x & 1 else x // 2)
    rows = [[top]]
    for gate, left, right in circuits.gates:
        g, a, b = number(gate), number(left), number(right)
        rows += [[-g, a], [-g, b], [g, -a, -b]]
    value = {v: number(x) for v, x in {**circuits.inputs, **circuits.outputs}.items()}
    for _, variable in prefix:
        if variable not in value:
            top += 1
            value[variable] = top
    written = [[value[abs(l)] if l > 0 else -value[abs(l)] for l in clause] for clause in clauses]
    if owner == "a":
        rows += written
    else:
        rows.append([top + 1 + at for at in range(len(written))])
        rows += [[-(top + 1 + at), -l] for at, clause in enumerate(written) for l in clause]
        top += len(written)
    text = f"p cnf {top} {len(rows)}\n" + "".join(" ".join(map(str, [*r, 0])) + "\n" for r in rows)
    solver = subprocess.run(["cadical", "-q", "-n", "-t", str(seconds)], input=text.encode(), stdout=subprocess.PIPE, check=False)
    return {20: True, 10: False}.get(solver.returncode)


def decide(formula, cert, seconds=None, owner=None):
    """`skolem`, `herbrand`, `wrong: ..` or `unknown`; by all values where no seconds are given."""
    prefix, clauses = read_formula(formula)
    circuits = Circuits(cert)
    if owner is None:
        kinds = {q for q, v in prefix if v in circuits.outputs} or {"e" if all(q == "a" for q, _ in prefix) else "a"}
        owner = min(kinds)
    why = misfit(prefix, owner, circuits)
    if why:
        return "wrong: " + why
    wins = by_all_values(prefix, clauses, owner, circuits) if seconds is None else by_sat(prefix, clauses, owner, circuits, seconds)
    if wins is None:
        return "unknown"
    return ("skolem" if owner == "e" else "herbrand") if wins else "wrong: a value loses"


def main():
    names, options = split(__doc__, 2, 2, sat="")
    seconds = int(options["sat"]) if options["sat"] else None
    with open(names[0], "rb") as formula, open(names[1], "rb") as cert:
        print(decide(formula.read(), cert.read(), seconds))


if __name__ == "__main__":
    main()
