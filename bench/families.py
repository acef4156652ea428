#!/usr/bin/env python3
"""Writes formulas of the families that bench/ measures.

Usage: bench/families.py list                the families, each with its sizes from small to large
       bench/families.py FAMILY SIZE FILE      one formula, in QDIMACS; the same words give the same bytes

What SIZE counts is the family's own matter. The listed sizes give about 1,000, 4,000, 16,000, 64,000, 256,000 and
1,000,000 clauses.
"""
import random
import sys

from words import split

TRUE = "true"
FALSE = "false"


class Formula:
    """A prefix as a list of blocks, and clauses."""

    def __init__(self):
        self.blocks = []
        self.clauses = []
        self.last = 0

    def variables(self, quantifier, count):
        """So many new variables, in a block of their own or in the last one."""
        new = range(self.last + 1, self.last + count + 1)
        self.last += count
        self.bind(quantifier, new)
        return new

    def bind(self, quantifier, variables):
        if self.blocks and self.blocks[-1][0] == quantifier:
            self.blocks[-1][1].extend(variables)
        elif len(variables) > 0:
            self.blocks.append((quantifier, list(variables)))

    def add(self, *literals):
        self.clauses.append(literals)

    def write(self, name):
        with open(name, "w", encoding="ascii") as out:
            out.write(f"p cnf {self.last} {len(self.clauses)}\n")
            for quantifier, variables in self.blocks:
                out.write(f"{quantifier} {' '.join(map(str, variables))} 0\n")
            out.writelines(" ".join(map(str, clause)) + " 0\n" for clause in self.clauses)


class Gates:
    """Gates as clauses. A gate's variable is existential, in the block that `close` makes."""

    def __init__(self, formula):
        self.formula = formula
        self.waiting = []

    def gate(self):
        self.formula.last += 1
        self.waiting.append(self.formula.last)
        return self.formula.last

    def close(self):
        self.formula.bind("e", self.waiting)
        self.waiting = []

    def conjunction(self, *inputs):
        if FALSE in inputs:
            return FALSE
        inputs = list(dict.fromkeys(x for x in inputs if x != TRUE))
        if any(-x in inputs for x in inputs):
            return FALSE
        if len(inputs) < 2:
            return inputs[0] if inputs else TRUE
        out = self.gate()
        for x in inputs:
            self.formula.add(-out, x)
        self.formula.add(out, *(-x for x in inputs))
        return out

    def disjunction(self, *inputs):
        return turned(self.conjunction(*map(turned, inputs)))

    def parity(self, a, b):
        if a in (TRUE, FALSE):
            return turned(b) if a == TRUE else b
        if b in (TRUE, FALSE):
            return turned(a) if b == TRUE else a
        out = self.gate()
        for signs in ((-1, 1, 1), (-1, -1, -1), (1, -1, 1), (1, 1, -1)):
            self.formula.add(signs[0] * out, signs[1] * a, signs[2] * b)
        return out

    def equal(self, a, b):
        return turned(self.parity(a, b))

    def choice(self, which, one, other):
        """`one` where `which` is true, and `other` where it is false."""
        if which in (TRUE, FALSE) or one == other:
            return other if which == FALSE else one
        if one in (TRUE, FALSE) or other in (TRUE, FALSE) or abs(which) in (abs(one), abs(other)):
            return self.disjunction(self.conjunction(which, one), self.conjunction(-which, other))
        out = self.gate()
        self.formula.add(-out, -which, one)
        self.formula.add(out, -which, -one)
        self.formula.add(-out, which, other)
        self.formula.add(out, which, -other)
        return out

    def table(self, entries, inputs):
        """The entry that the inputs name, the first input being the lowest bit."""
        for x in inputs:
            entries = [self.choice(x, entries[i + 1], entries[i]) for i in range(0, len(entries), 2)]
        return entries[0]

    def add_bits(self, a, b, carry):
        """Sum and carry of three bits."""
        either = self.parity(a, b)
        up = self.disjunction(self.conjunction(a, b), self.conjunction(either, carry))
        return self.parity(either, carry), up

    def sum(self, a, b):
        """The sum of two numbers, with its carry behind."""
        bits, carry = [], FALSE
        for x, y in zip(a, b):
            bit, carry = self.add_bits(x, y, carry)
            bits.append(bit)
        return bits + [carry]

    def demand(self, literal):
        """The literal is to be true."""
        if literal == FALSE:
            self.formula.add()
        elif literal != TRUE:
            self.formula.add(literal)


def turned(x):
    return {TRUE: FALSE, FALSE: TRUE}.get(x) or -x


def signed(variables):
    return [x if random.random() < 0.5 else -x for x in variables]


# Random clauses


def sat(n):
    """n clauses of three literals, three for each variable"""
    formula = Formula()
    variables = formula.variables("e", n // 3)
    for _ in range(n):
        formula.add(*signed(random.sample(variables, 3)))
    return formula


def qbf(n):
    """n clauses with two, one and two literals of three blocks (exists, for all, exists)"""
    formula = Formula()
    blocks = [(formula.variables(quantifier, n // 20), count) for quantifier, count in (("e", 2), ("a", 1), ("e", 2))]
    for _ in range(n):
        formula.add(*(x for block, count in blocks for x in signed(random.sample(block, count))))
    return formula


def mostly_inner(n):
    """n clauses of three literals; half of them have a universal and two inner existentials, the others no universal"""
    existentials, universals = n // 4, n // 10
    formula = Formula()
    outer = formula.variables("e", existentials // 3)
    between = formula.variables("a", universals)
    inner = formula.variables("e", existentials - existentials // 3)
    bound = list(outer) + list(inner)
    for _ in range(n):
        if random.random() < 0.5:
            formula.add(*signed(random.sample(bound, 3)))
        else:
            formula.add(*signed([random.choice(between)] + random.sample(inner, 2)))
    return formula


def subsumed(n):
    """as sat, and a tenth of the clauses lies around another one, or around one with a literal turned"""
    formula = sat(n)
    variables, clauses = formula.blocks[0][1], formula.clauses
    for _ in range(n // 20):
        around, inverted = clauses[random.randrange(n)], list(clauses[random.randrange(n)])
        clauses[random.randrange(n)] = (*around, random.choice(variables))
        inverted[0] = -inverted[0]
        clauses[random.randrange(n)] = (*inverted, random.choice(variables))
    return formula


def copies(n):
    """n clauses of three literals, copies of twenty over twelve variables, in mixed order"""
    formula = Formula()
    variables = formula.variables("e", 12)
    some = [signed(random.sample(variables, 3)) for _ in range(20)]
    formula.clauses = [tuple(some[i % 20]) for i in range(n)]
    random.shuffle(formula.clauses)
    return formula


# Chains and rings


def units(n):
    """a unit clause and a chain of n implications, in order"""
    formula = Formula()
    formula.variables("e", n)
    formula.clauses = [(1,)] + [(-i, i + 1) for i in range(1, n)]
    return formula


def mixed(n):
    """the same in mixed order"""
    formula = units(n)
    random.shuffle(formula.clauses)
    return formula


def refuted(n):
    """the same chain in order, its unit clause last, and the negation of its last variable: false"""
    formula = units(n)
    formula.clauses = formula.clauses[:0:-1] + [(1,), (-n,)]
    return formula


def equal(n):
    """a chain of n equivalences in mixed order, and a clause of three literals for each ten variables"""
    formula = Formula()
    x = random.sample(formula.variables("e", n), n)
    for i in range(n - 1):
        formula.add(-x[i], x[i + 1])
        formula.add(x[i], -x[i + 1])
    for _ in range(n // 10):
        formula.add(*random.sample(x, 3))
    random.shuffle(formula.clauses)
    return formula


def implications(n, first):
    """n implications; beside each stands a universal, so that no literal is pure"""
    formula = Formula()
    x, u = range(1, n + 1), range(n + 1, 2 * n + 1)
    formula.last = 2 * n
    formula.bind("a", u)
    formula.bind("e", x)
    formula.clauses = [(-x[i - 1], x[i]) for i in range(first, n)]
    formula.clauses += [(x[i], u[i]) for i in range(0, n, 2)] + [(-x[i], -u[i]) for i in range(1, n, 2)]
    return formula


def chain(n):
    """a chain of n implications beside universals"""
    return implications(n, 1)


def cycle(n):
    """a cycle of n implications beside universals"""
    return implications(n, 0)


def ring(n):
    """a cycle; each universal stands positive at one place of it and negative at the opposite one"""
    formula = implications(n, 0)
    x, u = range(1, n + 1), range(n + 1, 2 * n + 1)
    formula.clauses = formula.clauses[:n] + [(x[i], u[i]) for i in range(n)]
    formula.clauses += [(-x[i - n // 2], -u[i]) for i in range(n)]
    return formula


def cuts(n):
    """n universals, positive along one cycle and negative along another one, so each of the 2n literals can be cut"""
    formula = Formula()
    x, y, u = range(1, n + 1), range(n + 1, 2 * n + 1), range(2 * n + 1, 3 * n + 1)
    formula.last = 3 * n
    formula.bind("a", u)
    formula.bind("e", list(x) + list(y))
    formula.clauses = [(-x[i - 1], x[i], u[i]) for i in range(n)] + [(-y[i - 1], y[i], -u[i]) for i in range(n)]
    return formula


def gated(n):
    """a ring of n existentials behind n universals, of which each clause holds one, a third of them far from its negation"""
    formula = Formula()
    u, x = formula.variables("a", n), formula.variables("e", n)
    for i in range(n):
        here, there = x[i - 1], x[i]
        formula.add(u[i], here, there)
        formula.add(-u[i], -here, -there)
        formula.add(here, -there, u[i * 7 % n])
    return formula


def cover(n):
    """a chain of n implications with clauses that grow along it, and n/4 clauses across"""
    formula = Formula()
    x, y = formula.variables("e", n), formula.variables("e", max(20, n // 4))
    for i in range(n - 1):
        formula.add(-x[i], x[i + 1], y[i % len(y)])
        formula.add(x[i], -x[i + 1], y[(i * 3 + 1) % len(y)])
        formula.add(-x[i], x[i + 1])
    for _ in range(n // 4):
        one, other = random.sample(x, 2), random.sample(y, 2)
        formula.add(*one, -other[0], other[1])
    return formula


def free(n):
    """a chain of n conjunctions with an output that nothing asks for, in mixed order: true"""
    formula = Formula()
    x = formula.variables("e", n + 1)
    gates = Gates(formula)
    last = x[0]
    for i in range(1, n + 1):
        last = gates.conjunction(last, x[i] if i % 3 else -x[i])
    gates.close()
    random.shuffle(formula.clauses)
    return formula


def completion(n):
    """the completion principle, n by n cells beside one universal: false"""
    formula = Formula()
    x = formula.variables("e", n * n)
    z = formula.variables("a", 1)[0]
    a, b = formula.variables("e", n), formula.variables("e", n)
    for i in range(n):
        for j in range(n):
            formula.add(x[i * n + j], z, a[i])
            formula.add(-x[i * n + j], -z, b[j])
    formula.add(*[-v for v in a])
    formula.add(*[-v for v in b])
    return formula


# Circuits


def gates(n):
    """n conjunctions, each of two inputs or earlier gates; one of the last two is asked for"""
    inputs = n // 10 + 2
    formula = Formula()
    formula.variables("e", inputs + n)
    for gate in range(inputs + 1, inputs + n + 1):
        a, b = signed(random.sample(range(max(1, gate - inputs), gate), 2))
        formula.clauses += [(-gate, a), (-gate, b), (gate, -a, -b)]
    formula.add(formula.last, formula.last - 1)
    return formula


def tower(n):
    """for all inputs there are the values of n gates, one above the other: true"""
    formula = Formula()
    u = formula.variables("a", n + 1)
    circuit = Gates(formula)
    top = u[0]
    for i in range(1, n + 1):
        top = circuit.parity(top, u[i]) if i % 4 == 0 else circuit.conjunction(top, u[i])
    out = circuit.gate()
    formula.add(out, top)
    formula.add(-out, -top)
    circuit.close()
    return formula


def parity(n):
    """the universal is to differ from the parity of n existentials before it: false"""
    formula = Formula()
    x = formula.variables("e", n)
    u = formula.variables("a", 1)[0]
    circuit = Gates(formula)
    odd = x[0]
    for other in x[1:]:
        odd = circuit.parity(odd, other)
    formula.add(u, odd)
    formula.add(-u, -odd)
    circuit.close()
    return formula


def adder(n):
    """a table of 8 bits for a sum and one for a carry, found so that n cells add numbers of n bits: true"""
    formula = Formula()
    sums, carries = formula.variables("e", 8), formula.variables("e", 8)
    a, b = formula.variables("a", n), formula.variables("a", n)
    circuit = Gates(formula)
    wanted = circuit.sum(a, b)
    carry, right = FALSE, []
    for i in range(n):
        cell = [a[i], b[i], carry]
        right.append(circuit.equal(circuit.table(sums, cell), wanted[i]))
        carry = circuit.table(carries, cell)
    right.append(circuit.equal(carry, wanted[n]))
    circuit.demand(circuit.conjunction(*right))
    circuit.close()
    return formula


def boxes(n):
    """an adder of n bits with two unknown cells, each of which sees its own inputs alone: true"""
    formula = Formula()
    cells = {}
    for place in (n // 3, 2 * n // 3):
        seen = formula.variables("a", 3)
        cells[place] = (seen, formula.variables("e", 2))
    a, b = formula.variables("a", n), formula.variables("a", n)
    circuit = Gates(formula)
    wanted = circuit.sum(a, b)
    carry, right, other = FALSE, [], []
    for i in range(n):
        if i in cells:
            seen, (bit, up) = cells[i]
            other += [circuit.parity(x, y) for x, y in zip(seen, (a[i], b[i], carry))]
            carry = up
        else:
            bit, carry = circuit.add_bits(a[i], b[i], carry)
        right.append(circuit.equal(bit, wanted[i]))
    right.append(circuit.equal(carry, wanted[n]))
    circuit.demand(circuit.disjunction(*other, circuit.conjunction(*right)))
    circuit.close()
    return formula


def register(n):
    """the state of a feedback register of 16 bits is sought from n bits that a filter gave: true"""
    taps, seen = (0, 2, 3, 5), (1, 4, 7, 11, 13)
    bits = [1] + [random.randrange(2) for _ in range(15)]
    formula = Formula()
    state = list(formula.variables("e", 16))
    circuit = Gates(formula)
    for _ in range(n):
        p, q, r, s, t = (bits[i] for i in seen)
        given = p & q ^ r ^ s & t ^ (p | s)
        p, q, r, s, t = (state[i] for i in seen)
        found = circuit.parity(circuit.parity(circuit.conjunction(p, q), r),
                               circuit.parity(circuit.conjunction(s, t), circuit.disjunction(p, s)))
        circuit.demand(found if given else turned(found))
        next_bit, next_literal = 0, FALSE
        for tap in taps:
            next_bit ^= bits[tap]
            next_literal = circuit.parity(next_literal, state[tap])
        bits, state = bits[1:] + [next_bit], state[1:] + [next_literal]
    circuit.close()
    return formula


# Games and plans


def game(n):
    """the first player of three moves takes three cells in a row of n by n: true"""
    formula = Formula()
    circuit = Gates(formula)
    cells = n * n
    mine, theirs = [FALSE] * cells, [FALSE] * cells
    for turn in range(3):
        moves = formula.variables("e", cells)
        formula.add(*moves)
        one_at_most(formula, list(moves))
        for move, taken in zip(moves, theirs):
            if taken != FALSE:
                formula.add(-move, -taken)
        mine = [circuit.disjunction(*pair) for pair in zip(mine, moves)]
        circuit.close()
        if turn < 2:
            # an answer is a number of a cell; one that is taken, or none, counts as no move
            answer = formula.variables("a", (cells - 1).bit_length())
            theirs = [circuit.disjunction(theirs[i], circuit.conjunction(*number(answer, i), turned(mine[i])))
                      for i in range(cells)]
            circuit.close()
    circuit.demand(circuit.disjunction(*(circuit.conjunction(*(mine[i] for i in row)) for row in rows(n))))
    circuit.close()
    return formula


def number(bits, value):
    """The literals that are true where the bits have this value."""
    return [x if value >> i & 1 else -x for i, x in enumerate(bits)]


def rows(n):
    """Three cells in a row, in a column or on a diagonal of a board of n by n."""
    for y in range(n):
        for x in range(n):
            for right, down in ((1, 0), (0, 1), (1, 1), (-1, 1)):
                if 0 <= x + 2 * right < n and y + 2 * down < n:
                    yield [(y + i * down) * n + x + i * right for i in range(3)]


def one_at_most(formula, literals):
    """At most one of them is true: pairs within groups of eight, and a leader for each group."""
    while True:
        groups = [literals[i:i + 8] for i in range(0, len(literals), 8)]
        for group in groups:
            for i, x in enumerate(group):
                for y in group[:i]:
                    formula.add(-x, -y)
        if len(groups) == 1:
            return
        literals = list(formula.variables("e", len(groups)))
        for leader, group in zip(literals, groups):
            for x in group:
                formula.add(-x, leader)


def gripper(n):
    """a robot with two hands carries n balls to the other room; a universal for each halving of the plan: true"""
    formula = Formula()
    circuit = Gates(formula)
    halvings = (3 * n - 1 + n % 2 - 1).bit_length()
    # the robot is in the second room; each ball is in the first, in the second, in the left hand, in the right hand
    before = [FALSE] + [TRUE, FALSE, FALSE, FALSE] * n
    after = [formula.variables("e", 1)[0]] + [FALSE, TRUE, FALSE, FALSE] * n
    for _ in range(halvings):
        middle = formula.variables("e", 1 + 4 * n)
        half = formula.variables("a", 1)[0]
        before, after = ([circuit.choice(half, y, x) for x, y in zip(before, middle)],
                         [circuit.choice(half, y, x) for x, y in zip(middle, after)])
        circuit.close()
    one_step(formula, circuit, before, after, n)
    circuit.close()
    return formula


def actions(state, n):
    """What has to hold for each action, and what it changes."""
    yield [turned(state[0])], {0: True}
    yield [state[0]], {0: False}
    yield [], {}
    for ball in range(n):
        for hand in (3, 4):
            free = [turned(state[4 * other + hand]) for other in range(n)]
            for room in (1, 2):
                here = state[0] if room == 2 else turned(state[0])
                stands, held = 4 * ball + room, 4 * ball + hand
                yield [here, state[stands]] + free, {stands: False, held: True}
                yield [here, state[held]], {held: False, stands: True}


def one_step(formula, circuit, before, after, n):
    """One action leads from one state to the other."""
    changes = [[] for _ in before]
    taken = []
    for needed, changed in actions(before, n):
        action = circuit.gate()
        taken.append(action)
        for literal in needed:
            demand_one(formula, [-action, literal])
        for place, value in changed.items():
            demand_one(formula, [-action, after[place] if value else turned(after[place])])
            changes[place].append(action)
    for place, why in enumerate(changes):
        demand_one(formula, [before[place], turned(after[place])] + why)
        demand_one(formula, [turned(before[place]), after[place]] + why)
    formula.add(*taken)
    for i, one in enumerate(taken):
        for other in taken[:i]:
            formula.add(-one, -other)


def demand_one(formula, literals):
    """The clause of these, where it is not true anyway."""
    literals = list(dict.fromkeys(x for x in literals if x != FALSE))
    if TRUE not in literals and not any(-x in literals for x in literals):
        formula.add(*literals)


COUNTS = (1000, 4000, 16000, 64000, 256000, 1000000)


def scaled(by):
    return tuple(round(count * by) for count in COUNTS)


# What each family is made by, and its sizes.
FAMILIES = {
    "sat": (sat, COUNTS),
    "subsumed": (subsumed, COUNTS),
    "qbf": (qbf, COUNTS),
    "random": (mostly_inner, COUNTS),
    "copies": (copies, COUNTS),
    "units": (units, COUNTS),
    "mixed": (mixed, COUNTS),
    "refuted": (refuted, COUNTS),
    "equal": (equal, scaled(1 / 2.1)),
    "chain": (chain, scaled(1 / 2)),
    "cycle": (cycle, scaled(1 / 2)),
    "ring": (ring, scaled(1 / 3)),
    "cuts": (cuts, scaled(1 / 2)),
    "gated": (gated, scaled(1 / 3)),
    "cover": (cover, scaled(1 / 3.25)),
    "free": (free, scaled(1 / 3)),
    "completion": (completion, [22, 45, 89, 179, 358, 707]),
    "gates": (gates, scaled(1 / 3)),
    "tower": (tower, scaled(1 / 3.25)),
    "parity": (parity, scaled(1 / 4)),
    "adder": (adder, scaled(1 / 78)),
    "boxes": (boxes, scaled(1 / 39)),
    "register": (register, scaled(1 / 34)),
    "game": (game, (5, 9, 16, 31, 62, 124)),
    "gripper": (gripper, (3, 8, 18, 38, 78, 158)),
}


def main():
    words, _ = split(__doc__, 1, 3)
    if words == ["list"]:
        for name, (make, sizes) in FAMILIES.items():
            print(f"{name:10} {make.__doc__}\n           {' '.join(map(str, sizes))}")
    elif len(words) == 3 and words[0] in FAMILIES:
        random.seed(int(words[1]))
        FAMILIES[words[0]][0](int(words[1])).write(words[2])
    else:
        sys.exit(__doc__)


if __name__ == "__main__":
    main()
