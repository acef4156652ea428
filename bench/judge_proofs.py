#!/usr/bin/env python3
"""Judges a refutation plainly and slowly: the line that `disprove` is to say of a CNF and a SAT solver's proof.

Usage: bench/judge_proofs.py [--binary] CNF PROOF

The steps are made one by one, and nothing is read once the empty clause is there: then it is `false N` after N steps. An addition is
implied by propagation, or its first literal is a pivot: with the outer clause of each clause that holds the negation (in a CNF, all of its
other literals) the resolvent is implied. A deletion wants its clause to be there, and nothing more. A variable has to stand in a clause
or in a set of existentials, of which the CNF may have some.
It shares nothing with the program. Causes: 1 bad line, 2 a variable, 3 no such clause, 4 not valid, 11 no empty clause. Of a proof in bytes the
line is the number of the step.
"""
import collections

from judge_traces import read_formula, tokens
from words import split

GREATEST = 2147483647


class Refused(Exception):
    def __init__(self, line, cause):
        super().__init__(f"refused line {line} cause {cause}")


class Clauses:
    """Clauses as sets, each as often as it is there; what is implied is found by two watched literals of each."""

    def __init__(self):
        self.copies, self.watches, self.short = collections.Counter(), collections.defaultdict(dict), {}

    def add(self, clause):
        self.copies[clause] += 1
        if self.copies[clause] == 1:
            pair = list(clause)[:2]
            if len(pair) < 2:
                self.short[clause] = None
            for literal in pair:
                self.watches[literal][clause] = None

    def take(self, clause):
        self.copies[clause] -= 1
        if not self.copies[clause]:
            del self.copies[clause]
            self.short.pop(clause, None)
            for literal in clause:
                self.watches[literal].pop(clause, None)

    def is_implied(self, clause):
        """Whether propagation of the negations, and of all clauses of one literal, meets a clause that is false."""
        true, todo = set(), []

        def put(literal):
            if literal not in true:
                true.add(literal)
                todo.append(literal)
            return -literal in true

        if any([put(-literal) for literal in clause]) or any([not short or put(*short) for short in self.short]):
            return True
        while todo:
            false = -todo.pop()
            for held in list(self.watches[false]):
                free = [l for l in held if -l not in true]
                other = next((l for l in free if held not in self.watches[l]), None)
                if any(l in true for l in free):
                    continue
                if not free or len(free) == 1 and put(free[0]):
                    return True
                if len(free) > 1 and other is not None:
                    del self.watches[false][held]
                    self.watches[other][held] = None
        return False

    def has_pivot(self, clause, pivot):
        rest = clause - {pivot}
        for held in list(self.copies):
            if -pivot in held and not any(-l in rest for l in held - {-pivot}):
                if not self.is_implied(clause | (held - {-pivot})):
                    return False
        return True


def text_steps(data):
    """The line, and the literals of each step with whether it is a deletion; None for a bad line."""
    place, literals, is_deletion = None, [], False
    for line, word in tokens(data):
        place = line if place is None else place
        digits = word[1:] if word[:1] == b"-" else word
        if word == b"d" and not literals and not is_deletion:
            is_deletion = True
        elif not digits.isdigit() or int(digits) > GREATEST or word[:1] == b"-" and not int(digits):
            raise Refused(line, 1)
        elif int(digits):
            literals.append(int(word))
        else:
            yield place, literals, is_deletion
            place, literals, is_deletion = None, [], False
    if place is not None:
        raise Refused(1 + data.count(b"\n"), 1)


def binary_number(data, at, step):
    """A number in at most five groups of seven bits, and where it ends."""
    number = 0
    for shift in range(0, 35, 7):
        if at + shift // 7 == len(data):
            break
        byte = data[at + shift // 7]
        number |= (byte & 127) << shift
        if byte < 128:
            return number, at + shift // 7 + 1
    raise Refused(step, 1)


def binary_steps(data):
    """The same of a proof in bytes; the line is the number of the step."""
    at, step = 0, 0
    while at < len(data):
        step, kind, literals, at = step + 1, data[at : at + 1], [], at + 1
        if kind not in (b"a", b"d"):
            raise Refused(step, 1)
        number, at = binary_number(data, at, step)
        while number:
            if number == 1 or number // 2 > GREATEST:
                raise Refused(step, 1)
            literals.append(-(number // 2) if number & 1 else number // 2)
            number, at = binary_number(data, at, step)
        yield step, literals, kind == b"d"


def is_binary(data):
    return data[:1] == b"a" or data[:1] == b"d" and data[1:2] not in (b" ", b"\t", b"\r", b"\n", b"")


def judge(cnf, proof, binary=None):
    prefix, formula = read_formula(cnf)
    bound, clauses = {variable for _, variable in prefix}, Clauses()
    for clause in formula:
        clauses.add(clause)
    if frozenset() in clauses.copies:
        return "false 0"
    steps = 0
    try:
        for line, literals, is_deletion in (binary_steps if binary or binary is None and is_binary(proof) else text_steps)(proof):
            clause = frozenset(literals)
            if any(abs(l) not in bound for l in clause):
                raise Refused(line, 2)
            if is_deletion and clause not in clauses.copies:
                raise Refused(line, 3)
            if not is_deletion and not clauses.is_implied(clause) and not (literals and clauses.has_pivot(clause, literals[0])):
                raise Refused(line, 4)
            (clauses.take if is_deletion else clauses.add)(clause)
            steps += 1
            if not clause:
                return f"false {steps}"
    except Refused as refusal:
        return str(refusal)
    return "refused end cause 11"


def main():
    names, options = split(__doc__, 2, 2, binary=False)
    with open(names[0], "rb") as cnf, open(names[1], "rb") as proof:
        print(judge(cnf.read(), proof.read(), True if options["binary"] else None))


if __name__ == "__main__":
    main()
