#!/usr/bin/env python3
"""Judges a solver's trace of a formula plainly and slowly, by docs/FORMATS.md alone: the line that `extract` is to say, but for its
number of gates.

Usage: bench/judge_traces.py IN TRACE

IN has to be a formula. It shares nothing with the program, and makes no circuits; bench/decide_circuits.py judges those.
"""
from words import split

BLANKS = b" \t\r\n"


class Refused(Exception):
    def __init__(self, line, cause):
        super().__init__(f"refused line {line} cause {cause}")


def tokens(data):
    """The line and the bytes of each token; comments are left out."""
    for number, text in enumerate(data.split(b"\n"), 1):
        if not text.lstrip(b" \t\r").startswith(b"c"):
            yield from ((number, word) for word in text.split())


def read_formula(data):
    """The prefix, as pairs of quantifier and variable from the outside in, and the clauses as sets."""
    words = [word for _, word in tokens(data)][4:]
    sets, clauses, clause, at = [], [], set(), 0
    while at < len(words) and words[at] in (b"e", b"a"):
        end = words.index(b"0", at)
        sets += [(words[at].decode(), int(word)) for word in words[at + 1 : end]]
        at = end + 1
    for number in map(int, words[at:]):
        if number:
            clause.add(number)
        else:
            clauses.append(frozenset(clause))
            clause = set()
    bound = {variable for _, variable in sets}
    free = sorted({abs(l) for c in clauses for l in c} - bound)
    return [("e", variable) for variable in free] + sets, clauses


class Words:
    """The tokens of a trace, each asked for as what may stand there."""

    def __init__(self, data):
        self.rest = tokens(data)
        self.end = 1 + data.count(b"\n")
        self.next()

    def next(self):
        self.line, self.word = next(self.rest, (self.end, None))

    def wrong(self):
        raise Refused(self.line, 2 if self.word is None else 1)

    def take(self, *names):
        if self.word not in names:
            self.wrong()
        said = self.word
        self.next()
        return said

    def number(self, least, may_be=lambda number: True):
        """A number from `least` on; one that is too large is told before one that may not stand here."""
        digits = self.word[1:] if self.word and self.word[:1] == b"-" else self.word
        if not digits or any(byte not in b"0123456789" for byte in digits):
            self.wrong()
        size = int(digits)
        is_negative = self.word[:1] == b"-"
        if is_negative and size == 0:
            self.wrong()
        if size > 2147483647:
            raise Refused(self.line, 8)
        number = -size if is_negative else size
        if number < least or not may_be(number):
            self.wrong()
        line = self.line
        self.next()
        return line, number


def read_trace(data):
    """The lines, as place, number, literals and antecedents; the verdict and its place."""
    words, lines, last = Words(data), [], 0
    words.take(b"p"), words.take(b"qrp"), words.number(0), words.number(0)
    while words.word in (b"e", b"a"):
        words.next()
        while words.number(0)[1]:
            pass
    while words.word != b"r":
        place, name = words.number(1)
        if name <= last:
            raise Refused(place, 3)
        last, literals, named = name, [], []
        while (number := words.number(-2147483647)[1]) != 0:
            literals.append(number)
        while (number := words.number(0, lambda n: n == 0 or len(named) < 2)[1]) != 0:
            named.append(number)
        lines.append((place, name, frozenset(literals), named))
    words.next()
    place = words.line
    return lines, words.take(b"SAT", b"UNSAT", b"UNKNOWN"), place


class Judge:
    def __init__(self, prefix, clauses, owner):
        self.owner = owner
        self.of = {variable: quantifier for quantifier, variable in prefix}
        self.place = {variable: place for place, (_, variable) in enumerate(prefix)}
        self.clauses = set(clauses)
        self.to_meet = [c for c in clauses if not any(-l in c for l in c)]

    def is_owned(self, literal):
        return self.of[abs(literal)] == self.owner

    def has_both(self, literals):
        return any(-l in literals for l in literals if self.is_owned(l))

    def may_stand(self, literals):
        if self.has_both(literals):
            return False
        return all(c & literals for c in self.to_meet) if self.owner == "e" else literals in self.clauses

    def may_merge(self, first, second, pivot):
        """Whether the pivot stands before each variable of the owner of which the lines hold different signs."""
        place = self.place[abs(pivot)]
        return all(place < self.place[abs(l)] for l in first if -l in second and self.is_owned(l))

    def cause_of_reduction(self, parents, line):
        """Of what may be reduced, by each pivot, to the line: 10, 11, or nothing where one is right."""
        opposed = lambda literals: {l for l in literals if not self.is_owned(l)}
        parents = [parent for parent in parents if opposed(parent) <= line]
        if not parents:
            return 10
        for parent in parents:
            inner = max((self.place[abs(l)] for l in opposed(parent)), default=-1)
            if all(inner < self.place[abs(l)] for l in parent - line):
                return None
        return 11

    def cause(self, literals, named, before):
        if any(abs(l) not in self.of for l in literals):
            return 4
        if not named or any(name not in before for name in named):
            return None if self.may_stand(literals) else 5 if named else 6
        first, *other = (before[name] for name in named)
        parents = [first]
        if other:
            pivots = [l for l in first if -l in other[0] and not self.is_owned(l)]
            if not pivots:
                return 7
            parents = [(first - {p}) | (other[0] - {-p}) for p in pivots if self.may_merge(first, other[0], p)]
        both = {l for l in literals if -l in literals and self.is_owned(l)}
        parents = [parent for parent in parents if both <= parent]
        return self.cause_of_reduction(parents, literals) if parents else 9


def cone(lines):
    """The numbers of the lines that the last empty one follows from, itself among them."""
    names = {name: (literals, named) for _, name, literals, named in lines}
    found, todo = set(), [name for name, (literals, _) in names.items() if not literals][-1:]
    while todo:
        name = todo.pop()
        if name not in found:
            found.add(name)
            todo += [other for other in names[name][1] if other in names and other < name]
    return found


def judge(formula, trace):
    """What `extract` is to say: `true`, `false`, `unknown`, or a refusal with its line and cause."""
    prefix, clauses = read_formula(formula)
    try:
        lines, verdict, place = read_trace(trace)
        if verdict == b"UNKNOWN":
            return "unknown"
        judge_ = Judge(prefix, clauses, "e" if verdict == b"SAT" else "a")
        counting, before = cone(lines), {}
        if not counting and not judge_.may_stand(frozenset()):
            raise Refused(place, 5)
        for line, name, literals, named in lines:
            cause = judge_.cause(literals, named, before) if name in counting else None
            if cause:
                raise Refused(line, cause)
            before[name] = literals
        return "true" if verdict == b"SAT" else "false"
    except Refused as refusal:
        return str(refusal)


def main():
    names, _ = split(__doc__, 2, 2)
    with open(names[0], "rb") as formula, open(names[1], "rb") as trace:
        print(judge(formula.read(), trace.read()))


if __name__ == "__main__":
    main()
