"""Formulas, as docs/FORMATS.md has them: tokens, the reader with its refusals, the canonical text, and truth by truth tables.

Nothing here is made from the program: a difference between the two is a mistake of one of them.
"""
import re
from collections import namedtuple

NUMBER = re.compile(rb"-?[0-9]+\Z")
CAP = 2**62
MOST_VARIABLES = 16777215
MOST_CLAUSES = 33554432

Refusal = namedtuple("Refusal", "line cause")
Formula = namedtuple("Formula", "prefix matrix")  # pairs of 'a' or 'e' and a variable; frozensets of literals


class Refused(Exception):
    """The first offence of a text."""

    def __init__(self, line, cause):
        super().__init__(line, cause)
        self.refusal = Refusal(line, cause)


def tokens(text):
    """The tokens, each with the line of its first byte, and the line of the end."""
    found = []
    lines = text.split(b"\n")
    for line, part in enumerate(lines, 1):
        words = re.split(rb"[ \t\r]+", part.strip(b" \t\r"))
        if words[0][:1] != b"c":
            found.extend((line, word) for word in words if word)
    return found, len(lines)


def number(word):
    """The number that a word is, or None."""
    if not NUMBER.match(word):
        return None
    value = int(word)
    if value == 0 and word[:1] == b"-":
        return None
    return max(-CAP, min(CAP, value))


def plain(word):
    """The number without a sign that a word is, or None."""
    value = number(word)
    return None if value is None or word[:1] == b"-" else value


def read_header(words, end):
    """The two numbers of the header."""
    tests = [lambda w: w == b"p", lambda w: w == b"cnf", lambda w: plain(w) is not None, lambda w: plain(w) is not None]
    limits = [None, None, MOST_VARIABLES, MOST_CLAUSES]
    for place, (test, limit) in enumerate(zip(tests, limits)):
        if place >= len(words):
            raise Refused(end, 1)
        line, word = words[place]
        if not test(word):
            raise Refused(line, 1)
        if limit is not None and plain(word) > limit:
            raise Refused(line, 8)
    return plain(words[2][1]), plain(words[3][1])


class Reading:
    """What was read so far behind the header."""

    def __init__(self, most, count):
        self.most, self.count = most, count
        self.sets, self.bound, self.clauses = [], set(), []
        self.quantifier = self.clause = None

    def in_set(self, line, word):
        value = number(word)
        if value is None or value < 0:
            raise Refused(line, 2)
        if value > self.most:
            raise Refused(line, 3)
        if value in self.bound:
            raise Refused(line, 4)
        if value == 0:
            self.quantifier = None
        else:
            self.bound.add(value)
            self.sets.append((self.quantifier, value))

    def outside(self, line, word):
        if word in (b"e", b"a"):
            if self.clauses:
                raise Refused(line, 5)
            self.quantifier = word.decode()
            return
        if number(word) is None:
            raise Refused(line, 2)
        if len(self.clauses) == self.count:
            raise Refused(line, 6)
        self.clause = []
        self.in_clause(line, word)

    def in_clause(self, line, word):
        value = number(word)
        if value is None:
            raise Refused(line, 2)
        if abs(value) > self.most:
            raise Refused(line, 3)
        if value == 0:
            self.clauses.append(frozenset(self.clause))
            self.clause = None
        else:
            self.clause.append(value)

    def take(self, line, word):
        if self.quantifier is not None:
            self.in_set(line, word)
        elif self.clause is not None:
            self.in_clause(line, word)
        else:
            self.outside(line, word)

    def finish(self, end):
        if self.quantifier is not None or self.clause is not None:
            raise Refused(end, 7)
        if len(self.clauses) < self.count:
            raise Refused(end, 6)
        used = {abs(literal) for clause in self.clauses for literal in clause}
        free = [("e", v) for v in sorted(used - self.bound)]
        return Formula(free + self.sets, self.clauses)


def read(text):
    """The formula of a text; Refused says its first offence."""
    words, end = tokens(text)
    reading = Reading(*read_header(words, end))
    for line, word in words[4:]:
        reading.take(line, word)
    return reading.finish(end)


def in_order(clause):
    """The literals by variable, the negative one first."""
    return sorted(clause, key=lambda literal: (abs(literal), literal > 0))


def blocks(prefix):
    """The longest runs of one quantifier, each with its variables."""
    runs = []
    for quantifier, variable in prefix:
        if not runs or runs[-1][0] != quantifier:
            runs.append((quantifier, []))
        runs[-1][1].append(variable)
    return runs


def canonical(formula):
    """The text that `simplify` and others write."""
    greatest = max((v for _, v in formula.prefix), default=0)
    lines = [f"p cnf {greatest} {len(formula.matrix)}"]
    lines += [f"{q} {' '.join(map(str, run))} 0" for q, run in blocks(formula.prefix)]
    lines += [" ".join(map(str, in_order(clause) + [0])) for clause in formula.matrix]
    return ("\n".join(lines) + "\n").encode()


def measure(formula, grow, expand):
    """Literals, clauses and the weights of the variables that occur."""
    used = {abs(literal) for clause in formula.matrix for literal in clause}
    weight = {"e": grow + 1, "a": expand + (grow + 1) * expand + 1}
    return sum(len(c) + 1 for c in formula.matrix) + sum(weight[q] for q, v in formula.prefix if v in used)


class Tables:
    """Truth tables over variables: a table is a number with one bit for each assignment, the last variable counts by one."""

    def __init__(self, variables):
        self.all = (1 << (1 << len(variables))) - 1
        self.stride = {v: 1 << (len(variables) - 1 - i) for i, v in enumerate(variables)}

    def variable(self, v):
        """The table of a variable."""
        stride = self.stride[v]
        return self.all // ((1 << (2 * stride)) - 1) * (((1 << stride) - 1) << stride)

    def under(self, table, v, value):
        """The table where the variable has this value."""
        stride, ones = self.stride[v], self.variable(v)
        if value:
            part = table & ones
            return part | part >> stride
        part = table & (self.all ^ ones)
        return part | part << stride

    def matrix(self, clauses, values):
        """The table of a matrix, with the tables of its variables."""
        result = self.all
        for clause in clauses:
            part = 0
            for literal in clause:
                part |= values[literal] if literal > 0 else self.all ^ values[-literal]
            result &= part
        return result


def won(formula):
    """The tables of the formula without its first n quantifiers, for each n; the first one says whether the formula is true."""
    variables = [v for _, v in formula.prefix]
    tables = Tables(variables)
    table = tables.matrix(formula.matrix, {v: tables.variable(v) for v in variables})
    found = [table]
    for quantifier, v in reversed(formula.prefix):
        zero, one = tables.under(table, v, False), tables.under(table, v, True)
        table = zero | one if quantifier == "e" else zero & one
        found.append(table)
    return tables, found[::-1]


def is_true(formula):
    """Whether the formula is true."""
    _, found = won(formula)
    return found[0] != 0
