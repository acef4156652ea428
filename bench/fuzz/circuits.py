"""Circuits in ASCII AIGER, as docs/FORMATS.md has them: the reader with its refusals, whether circuits fit a formula, whether they are Skolem or
Herbrand functions of it, and circuits made of a game that is played to its end."""
import re
from collections import namedtuple

from formulas import Refused, Tables, is_true, won

MOST_GATES = 268435456
MOST_NAME = 16777215

Circuits = namedtuple("Circuits", "inputs outputs gates literals")  # names; names; literal -> two literals; input literal -> name


def words_of(line):
    """The words of a line."""
    return [word for word in re.split(rb"[ \t]+", line) if word]


def numbers(words, count):
    """So many numbers without a sign, or None."""
    if len(words) != count or not all(w.isdigit() for w in words):
        return None
    return [int(w) for w in words]


def read_header(words):
    """M and the numbers of inputs, outputs and gates."""
    found = numbers(words[1:], 5) if words[:1] == [b"aag"] else None
    if found is None or found[0] < found[1] + found[2] + found[4]:
        raise Refused(1, 1)
    if found[2] > 0:
        raise Refused(1, 3)
    if found[0] > MOST_GATES:
        raise Refused(1, 9)
    return found[0], found[1], found[3], found[4]


class Definitions:
    """The lines behind the header but for the symbols."""

    def __init__(self, most):
        self.most = most
        self.defined, self.inputs, self.outputs, self.gates = set(), [], [], []

    def define(self, line, literal):
        if literal % 2 or not 2 <= literal <= 2 * self.most:
            raise Refused(line, 2)
        if literal in self.defined:
            raise Refused(line, 4)
        self.defined.add(literal)

    def take(self, line, kind, text):
        row = numbers(words_of(text), 3 if kind == "gate" else 1)
        if row is None or any(n > 2 * self.most + 1 for n in row):
            raise Refused(line, 2)
        if kind == "output":
            self.outputs.append((line, row[0]))
            return
        self.define(line, row[0])
        if kind == "input":
            self.inputs.append(row[0])
        else:
            self.gates.append((line, row))


def read_symbols(lines, first, inputs, outputs, end):
    """The names of the inputs and of the outputs."""
    names = {"i": [None] * inputs, "o": [None] * outputs}
    for line, text in enumerate(lines, first):
        words = words_of(text)
        if words == [b"c"]:
            break
        if not words:
            continue
        kind, place = words[0][:1].decode("latin-1"), words[0][1:]
        row = names.get(kind, [])
        fits = len(words) == 2 and place.isdigit() and words[1].isdigit() and int(place) < len(row)
        if not fits or row[int(place)] is not None or not 1 <= int(words[1]) <= MOST_NAME or int(words[1]) in row:
            raise Refused(line, 7)
        row[int(place)] = int(words[1])
    if not all_named(names):
        raise Refused(end, 7)
    return names["i"], names["o"]


def all_named(names):
    return None not in names["i"] and None not in names["o"]


def lines_of(text):
    """The lines; a CR counts but before a line's end."""
    *ended, last = text.split(b"\n")
    return [line.removesuffix(b"\r") for line in ended] + ([last] if last else [])


def read(text):
    """The circuits of a text; Refused says its first offence."""
    lines, end = lines_of(text), text.count(b"\n") + 1
    most, inputs, outputs, gates = read_header(words_of(lines[0]) if lines else [])
    found = Definitions(most)
    behind = 1 + inputs + outputs + gates
    # the header may say any number, and the file has its lines alone
    for place in range(1, behind):
        if place >= len(lines):
            raise Refused(end, 8)
        kind = "input" if place <= inputs else "output" if place <= inputs + outputs else "gate"
        found.take(place + 1, kind, lines[place])
    named = read_symbols(lines[behind:], behind + 1, inputs, outputs, end)
    uses = [(line, [literal]) for line, literal in found.outputs] + [(line, row[1:]) for line, row in found.gates]
    for line, row in uses:
        if any(n > 1 and n & ~1 not in found.defined for n in row):
            raise Refused(line, 5)
    table = {row[0]: row[1:] for _, row in found.gates}
    for line, row in found.gates:
        if depends(table, row[0]):
            raise Refused(line, 6)
    outs = dict(zip(named[1], [literal for _, literal in found.outputs]))
    return Circuits(named[0], outs, table, dict(zip(found.inputs, named[0])))


def cone(table, literals):
    """The variables on which literals rest, as even literals."""
    seen, waiting = set(), [n & ~1 for n in literals]
    while waiting:
        here = waiting.pop()
        if here not in seen:
            seen.add(here)
            waiting.extend(n & ~1 for n in table.get(here, ()))
    return seen


def depends(table, gate):
    """Whether a gate depends on itself."""
    return gate in cone(table, table[gate])


def reads(circuits, name):
    """The inputs that the circuit of a name reads, by their places."""
    found = cone(circuits.gates, [circuits.outputs[name]])
    return [v for v in circuits.inputs if any(circuits.literals.get(n) == v for n in found)]


def misfit(formula, circuits, owner):
    """What of the circuits does not fit the prefix: one for each variable of the owner's, over the opponent's before it; or None."""
    owned = [v for q, v in formula.prefix if q == owner]
    others = {v for q, v in formula.prefix if q != owner}
    for v in owned:
        if v not in circuits.outputs:
            return f"missing {v}"
    for v in circuits.outputs:
        if v not in owned:
            return f"strange output {v}"
    read_by = {v: reads(circuits, v) for v in owned}
    for v in circuits.inputs:
        if v not in others and any(v in row for row in read_by.values()):
            return f"strange input {v}"
    place = {v: i for i, (_, v) in enumerate(formula.prefix)}
    for v in owned:
        for u in read_by[v]:
            if place[u] > place[v]:
                return f"{v} reads {u}"
    return None


def values_of(formula, circuits, owner):
    """The tables of all variables, where those of the owner's are the circuits' values."""
    others = [v for q, v in formula.prefix if q != owner]
    tables = Tables(others)
    values = {v: tables.variable(v) for v in others}
    known = {0: 0}

    def value(literal):
        base = literal & ~1
        if base not in known:
            if base in circuits.literals:
                known[base] = values.get(circuits.literals[base], 0)
            else:
                left, right = circuits.gates[base]
                known[base] = value(left) & value(right)
        return known[base] ^ tables.all if literal & 1 else known[base]

    values.update({v: value(literal) for v, literal in circuits.outputs.items()})
    return tables, values


def are_skolem(formula, circuits):
    """Whether each clause is true, whatever the universals are."""
    tables, values = values_of(formula, circuits, "e")
    return tables.matrix(formula.matrix, values) == tables.all


def are_herbrand(formula, circuits):
    """Whether some clause is false, whatever the existentials are."""
    tables, values = values_of(formula, circuits, "a")
    return tables.matrix(formula.matrix, values) == 0


class Builder:
    """Circuits that are made of tables."""

    def __init__(self, inputs):
        self.inputs, self.gates = inputs, []

    def both(self, left, right):
        if 0 in (left, right) or left == right ^ 1:
            return 0
        if left == 1 or left == right:
            return right
        if right == 1:
            return left
        self.gates.append((left, right))
        return 2 * (len(self.inputs) + len(self.gates))

    def choice(self, test, one, zero):
        return self.both(self.both(test, one) ^ 1, self.both(test ^ 1, zero) ^ 1) ^ 1

    def of_table(self, variables, row):
        """The literal of a table, given as a row of values by the variables' values."""
        if len(row) == 1:
            return int(row[0])
        half = len(row) // 2
        zero, one = (self.of_table(variables[1:], part) for part in (row[:half], row[half:]))
        return zero if zero == one else self.choice(2 * (self.inputs.index(variables[0]) + 1), one, zero)

    def text(self, outputs):
        count = len(self.inputs)
        lines = [f"aag {count + len(self.gates)} {count} 0 {len(outputs)} {len(self.gates)}"]
        lines += [str(2 * (i + 1)) for i in range(count)] + [str(n) for n in outputs.values()]
        lines += [f"{2 * (count + i + 1)} {a} {b}" for i, (a, b) in enumerate(self.gates)]
        lines += [f"i{i} {v}" for i, v in enumerate(self.inputs)] + [f"o{i} {v}" for i, v in enumerate(outputs)]
        return ("\n".join(lines) + "\n").encode()


def winner(formula):
    """Whose circuits win: 'e' where the formula is true."""
    return "e" if is_true(formula) else "a"


def strategy(formula, owner, rng, careless=0.0):
    """A text of circuits that win for the owner where that can be; with some luck they are careless in between."""
    tables, found = won(formula)
    others = [v for q, v in formula.prefix if q != owner]
    rows = {v: {} for q, v in formula.prefix if q == owner}
    for number in range(1 << len(others)):
        given = {v: bool(number >> (len(others) - 1 - i) & 1) for i, v in enumerate(others)}
        play(formula, owner, tables, found, given, rows, rng, careless)
    builder = Builder(others)
    outputs = {}
    for v, row in rows.items():
        before = opponents_before(formula, owner, v)
        keys = [tuple(bool(n >> (len(before) - 1 - i) & 1) for i in range(len(before))) for n in range(1 << len(before))]
        outputs[v] = builder.of_table(before, [row[key] for key in keys])
    return builder.text(outputs)


def opponents_before(formula, owner, variable):
    found = []
    for q, v in formula.prefix:
        if v == variable:
            return found
        if q != owner:
            found.append(v)
    return found


def play(formula, owner, tables, found, given, rows, rng, careless):
    """One game from its beginning to its end, where the opponent's values are given."""
    values = {}
    for place, (q, v) in enumerate(formula.prefix):
        if q != owner:
            values[v] = given[v]
            continue
        key = tuple(values[u] for u in opponents_before(formula, owner, v))
        if key not in rows[v]:
            good = [b for b in (False, True) if wins(tables, found[place + 1], formula.prefix[:place], values, v, b, owner)]
            rows[v][key] = rng.choice(good if good and rng.random() >= careless else [False, True])
        values[v] = rows[v][key]


def wins(tables, table, before, values, variable, value, owner):
    for _, v in before:
        table = tables.under(table, v, values[v])
    table = tables.under(table, variable, value)
    return (table != 0) == (owner == "e")
