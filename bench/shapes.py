#!/usr/bin/env python3
"""Writes formulas of shapes in which something grows long: a clause, the list of a literal, a chain, the row of blocks.

Usage: bench/shapes.py list                the families, each with three sizes
       bench/shapes.py FAMILY SIZE FILE      one formula, in QDIMACS; the same words give the same bytes

They stand beside those of bench/families.py, and bench/limits.py measures both. What SIZE counts is the family's own matter.
"""
import random
import sys

from families import FALSE, TRUE, Formula, Gates, number, signed, turned
from words import split


# Long lists and long clauses


def hub(n):
    """n random clauses of three literals, and in each one of them one variable, half of the time negated"""
    formula = Formula()
    enable = formula.variables("e", 1)[0]
    data = formula.variables("e", n // 4)
    for i in range(n):
        formula.add(enable if i % 2 else -enable, *signed(random.sample(data, 3)))
    return formula


def activation(n):
    """n random clauses of three literals behind twenty switches, of which one at least is on"""
    formula = Formula()
    switches = formula.variables("e", 20)
    data = formula.variables("e", n // 3)
    for i in range(n):
        formula.add(-switches[i % 20], *signed(random.sample(data, 3)))
    formula.add(*switches)
    formula.add(-switches[0], switches[1])
    return formula


def wide_or(n):
    """w disjunctions of w inputs over variables that they share, w being the root of n, and clauses between their outputs"""
    width = int(n ** 0.5)
    formula = Formula()
    outer = formula.variables("e", 2 * width)
    between = formula.variables("a", 8)
    inner = formula.variables("e", 2 * width)
    outputs = formula.variables("e", width)
    for out in outputs:
        inputs = signed(random.sample(outer, width // 2)) + signed(random.sample(inner, width - width // 2))
        for x in inputs:
            formula.add(-x, out)
        formula.add(-out, *inputs)
    for i, out in enumerate(outputs):
        formula.add(out, -outputs[(3 * i + 1) % width], *signed([random.choice(between)]))
    return formula


def dnf_guard(n):
    """one long disjunction of n conjunctions, each of two universals and an existential before them"""
    formula = Formula()
    outer = formula.variables("e", n // 8)
    universals = formula.variables("a", n // 4)
    circuit = Gates(formula)
    terms = [circuit.conjunction(*signed(random.sample(universals, 2)), *signed([random.choice(outer)])) for _ in range(n)]
    circuit.demand(circuit.disjunction(*terms))
    circuit.close()
    return formula


# Chains


def bin_path(n):
    """ten chains of n/10 implications, and n random clauses of three literals over all of their variables"""
    formula = Formula()
    x = formula.variables("e", n)
    for i in range(n - 1):
        if (i + 1) % (n // 10):
            formula.add(-x[i], x[i + 1])
    for _ in range(n):
        formula.add(*signed(random.sample(x, 3)))
    return formula


def bin_path_q(n):
    """the same over twenty pairs of blocks, with a universal in each random clause"""
    formula = Formula()
    x, u = [], []
    for _ in range(20):
        u += formula.variables("a", 5)
        x += formula.variables("e", n // 20)
    for i in range(len(x) - 1):
        if (i + 1) % (n // 10):
            formula.add(-x[i], x[i + 1])
    for _ in range(len(x)):
        formula.add(*signed(random.sample(x, 2)), *signed([random.choice(u)]))
    return formula


def unit_false(n):
    """a unit clause and a chain of n implications in mixed order, and the negation of its last variable: false"""
    formula = Formula()
    x = random.sample(formula.variables("e", n + 1), n + 1)
    formula.add(x[0])
    for i in range(n):
        formula.add(-x[i], x[i + 1])
    formula.add(-x[n])
    random.shuffle(formula.clauses)
    return formula


# Many blocks


def ring_blocks(n):
    """a ring of n existentials behind n universals, each in a block of its own beside an existential"""
    formula = Formula()
    u, beside = [], []
    for _ in range(n):
        u += formula.variables("a", 1)
        beside += formula.variables("e", 1)
    x = formula.variables("e", n)
    for i in range(n):
        here, there, later = x[i], x[(i + 1) % n], u[(i + 1) % n]
        formula.add(u[i], here, there)
        formula.add(-u[i], -here, -there)
        formula.add(here, -there, u[(7 * i + 3) % n])
        formula.add(beside[i], -later, x[(i + 5) % n])
        formula.add(-beside[i], later, -x[(i + 9) % n])
    return formula


def cut_blocks(n):
    """n times an existential, a universal and an existential in blocks of their own, in a ring"""
    formula = Formula()
    before, u, behind = [], [], []
    for _ in range(n):
        before += formula.variables("e", 1)
        u += formula.variables("a", 1)
        behind += formula.variables("e", 1)
    for i in range(n):
        next_one = (i + 1) % n
        formula.add(before[i], u[i])
        formula.add(-before[i], behind[i], u[next_one])
        formula.add(-behind[i], -before[i], behind[next_one])
    return formula


def modal(n):
    """n levels as of a modal logic: two universals choose one of four guards, each for clauses over a level and the one before"""
    formula = Formula()
    before = formula.variables("e", 6)
    for _ in range(4):
        formula.add(*signed(random.sample(before, 3)))
    for _ in range(n):
        path = formula.variables("a", 2)
        here = formula.variables("e", 6)
        guards = formula.variables("e", 4)
        for value, guard in enumerate(guards):
            formula.add(*map(turned, number(path, value)), guard)
            for _ in range(3):
                formula.add(-guard, *signed(random.sample(here, 2)), *signed([random.choice(before)]))
            formula.add(-guard, *signed([random.choice(here)]))
        for x, y in zip(before, here):
            if random.random() < 0.5:
                formula.add(-x, y, path[0])
                formula.add(x, -y, path[0])
        before = here
    return formula


# Circuits


def same(circuit, ones, others):
    """Whether two rows of literals have the same values."""
    return circuit.conjunction(*(circuit.equal(one, other) for one, other in zip(ones, others)))


def memory(n):
    """n words of eight bits, four writes and four reads at universal addresses; what is read is what was written there last"""
    bits = max(1, (n - 1).bit_length())
    formula = Formula()
    data = [formula.variables("e", 8) for _ in range(4)]
    addresses = [formula.variables("a", bits) for _ in range(8)]
    circuit = Gates(formula)
    words = [[FALSE] * 8 for _ in range(n)]
    for written, address in zip(data, addresses):
        here = [circuit.conjunction(*number(address, i)) for i in range(n)]
        words = [[circuit.choice(chosen, new, old) for new, old in zip(written, word)] for chosen, word in zip(here, words)]
    for address in addresses[4:]:
        here = [circuit.conjunction(*number(address, i)) for i in range(n)]
        found = [same(circuit, address, other) for other in addresses[:4]]
        for bit in range(8):
            read = circuit.disjunction(*(circuit.conjunction(chosen, word[bit]) for chosen, word in zip(here, words)))
            wanted = FALSE
            for chosen, written in zip(found, data):
                wanted = circuit.choice(chosen, written[bit], wanted)
            circuit.demand(circuit.equal(read, wanted))
    circuit.close()
    return formula


def increased(circuit, bits):
    """A number and one, without the carry."""
    carry, result = TRUE, []
    for x in bits:
        result.append(circuit.parity(x, carry))
        carry = circuit.conjunction(x, carry)
    return result


def bounded(n):
    """n counters of eight bits over 24 steps, each with a switch: the first and the last are equal at some step"""
    formula = Formula()
    circuit = Gates(formula)
    counters = [[random.choice((TRUE, FALSE)) for _ in range(8)] for _ in range(n)]
    wrong = []
    for step in range(24):
        switches = formula.variables("e", n)
        moved = []
        for i, counter in enumerate(counters):
            goes = circuit.conjunction(switches[i], -switches[(7 * i + step) % n])
            moved.append([circuit.choice(goes, new, old) for new, old in zip(increased(circuit, counter), counter)])
        counters = moved
        wrong.append(circuit.conjunction(same(circuit, counters[0], counters[-1]), switches[0]))
        circuit.close()
    circuit.demand(circuit.disjunction(*wrong))
    circuit.close()
    return formula


# What each family is made by, and three sizes.
FAMILIES = {
    "hub": (hub, (2000, 8000, 32000)),
    "activation": (activation, (4000, 12000, 36000)),
    "wide_or": (wide_or, (4000, 16000, 64000)),
    "dnf_guard": (dnf_guard, (500, 1000, 2000)),
    "bin_path": (bin_path, (1300, 4000, 12000)),
    "bin_path_q": (bin_path_q, (4000, 12000, 36000)),
    "unit_false": (unit_false, (2000, 4000, 8000)),
    "ring_blocks": (ring_blocks, (1000, 2000, 4000)),
    "cut_blocks": (cut_blocks, (1000, 4000, 16000)),
    "modal": (modal, (100, 400, 1600)),
    "memory": (memory, (24, 48, 72)),
    "bounded": (bounded, (4, 8, 16)),
}


def main():
    words, _ = split(__doc__, 1, 3)
    if words == ["list"]:
        for name, (make, sizes) in FAMILIES.items():
            print(f"{name:11} {make.__doc__}\n            {' '.join(map(str, sizes))}")
    elif len(words) == 3 and words[0] in FAMILIES:
        random.seed(int(words[1]))
        FAMILIES[words[0]][0](int(words[1])).write(words[2])
    else:
        sys.exit(__doc__)


if __name__ == "__main__":
    main()
