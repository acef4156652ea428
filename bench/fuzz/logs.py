"""Logs of both profiles, as docs/FORMATS.md and docs/THEORY.md have them: the reader, and the judge of each step."""
from collections import Counter, namedtuple

from formulas import MOST_VARIABLES, Formula, Refused, blocks, number, tokens

MOST_LITERAL = 2**31 - 1

Step = namedtuple("Step", "line kind literals")  # kind: add, d, u, e or r
Hinted = namedtuple("Hinted", "step name proof")  # the number of the clause, and ('1', hints), ('2', groups) or ('3',)


class Words:
    """The tokens of a log, one after the other."""

    def __init__(self, text):
        self.words, self.end = tokens(text)
        self.at = 0

    def is_over(self):
        return self.at == len(self.words)

    def bad(self):
        """The next token does not fit."""
        return Refused(self.words[self.at][0] if not self.is_over() else self.end, 1)

    def peek(self):
        if self.is_over():
            raise self.bad()
        return self.words[self.at]

    def literal(self):
        """The next token as a literal, or 0."""
        _, word = self.peek()
        value = number(word)
        if value is None or abs(value) > MOST_LITERAL:
            raise self.bad()
        self.at += 1
        return value

    def positive(self, most=MOST_LITERAL, or_zero=False):
        """The next token as a positive number."""
        _, word = self.peek()
        value = number(word)
        if value is None or value > most or value < (0 if or_zero else 1):
            raise self.bad()
        self.at += 1
        return value

    def zero(self):
        _, word = self.peek()
        if number(word) != 0:
            raise self.bad()
        self.at += 1

    def row(self, first=()):
        """Literals up to a 0."""
        row = list(first)
        while (value := self.literal()) != 0:
            row.append(value)
        return row

    def hints(self):
        row = []
        while (value := self.positive(2**62 - 1, True)) != 0:
            row.append(value)
        return row


def read_step(words):
    """The next step."""
    line, word = words.peek()
    if word in (b"d", b"u", b"e", b"r"):
        words.at += 1
        kind = word.decode()
        if kind == "d":
            return Step(line, kind, words.row())
        if kind == "u":
            first = words.literal()
            if first == 0:
                words.at -= 1
                raise words.bad()
            return Step(line, kind, words.row([first]))
        row = [words.positive() for _ in range(2 if kind == "e" else 1)]
        words.zero()
        return Step(line, kind, row)
    return Step(line, "add", words.row())


def read_proof(words):
    """The proof part behind a clause."""
    _, word = words.peek()
    kind = number(word)
    if kind not in (1, 2, 3):
        raise words.bad()
    words.at += 1
    if kind == 1:
        return (1, words.hints())
    if kind == 3:
        words.zero()
        return (3,)
    groups = []
    while (target := words.positive(2**62 - 1, True)) != 0:
        groups.append((target, words.hints()))
    return (2, groups)


def read_header(words):
    for wanted in (b"p", b"qrat", b"2"):
        if words.peek()[1] != wanted and not (wanted == b"2" and number(words.peek()[1]) == 2):
            raise words.bad()
        words.at += 1


def read_hinted(words):
    """The next step with its proof part."""
    step = read_step(words)
    name = words.positive(2**62 - 1) if step.kind in "du" else None
    return Hinted(step, name, read_proof(words) if step.kind in ("add", "d", "u") else None)


def is_hinted(text):
    words, _ = tokens(text)
    return bool(words) and words[0][1] == b"p"


class Order:
    """What the prefix says of two variables."""

    def __init__(self, prefix):
        self.quantifier = {v: q for q, v in prefix}
        self.block = {v: i for i, (_, run) in enumerate(blocks(prefix)) for v in run}

    def outer_or_same(self, a, b):
        return self.block[a] <= self.block[b]


def is_tautology(clause):
    return any(-literal in clause for literal in clause)


def is_implied(clauses, clause):
    """Whether propagation of the negations runs into a conflict."""
    if is_tautology(clause):
        return True
    known = {-literal for literal in clause}
    changed = True
    while changed:
        changed = False
        for other in clauses:
            left = [k for k in other if -k not in known]
            if not left:
                return True
            if len(left) == 1 and left[0] not in known:
                known.add(left[0])
                changed = True
    return False


def outer_clause(order, clause, literal):
    """The other literals that are outer or same to this one."""
    return frozenset(k for k in clause if k != literal and order.outer_or_same(abs(k), abs(literal)))


def is_pivot(order, clauses, clause, literal):
    """Whether each resolvent with an outer clause is implied."""
    return all(is_implied(clauses, clause | outer_clause(order, other, -literal)) for other in clauses if -literal in other)


def is_reducible(order, clauses, clause, literal):
    """Whether no clause that is reached from this one holds the negation."""
    reached, waiting = [clause], [clause]
    while waiting:
        here = waiting.pop()
        if -literal in here:
            return False
        inner = [k for k in here if order.quantifier[abs(k)] == "e" and not order.outer_or_same(abs(k), abs(literal))]
        for other in clauses:
            if literal not in other and any(-k in other for k in inner) and other not in reached:
                reached.append(other)
                waiting.append(other)
    return True


class Run:
    """A formula, and the steps that are made of it. `names` has the number of each clause, for logs with hints."""

    def __init__(self, formula):
        self.prefix = list(formula.prefix)
        self.clauses = dict(enumerate(formula.matrix, 1))
        self.next = len(self.clauses) + 1
        self.extended = None
        self.order = Order(self.prefix)

    def rest(self, name):
        return [c for n, c in self.clauses.items() if n != name]

    def name_of(self, clause):
        return next((n for n, c in self.clauses.items() if c == clause), None)

    def cause(self, step):
        """The least cause for which a step without hints is not valid, or None."""
        return self.cause_of_variables(step, self.order) or self.cause_of_clause(step, self.order)

    def cause_of_variables(self, step, order):
        bound = order.quantifier
        if step.kind == "e":
            new, old = step.literals
            return 6 if new in bound or new > MOST_VARIABLES or bound.get(old) != "e" else None
        if any(abs(k) not in bound for k in step.literals):
            return 2
        if step.kind == "r" and any(step.literals[0] in map(abs, c) for c in self.clauses.values()):
            return 7
        return None

    def making_cause(self, step):
        """The least cause for which a step can't be made, whoever judges it, or None."""
        cause = self.cause_of_variables(step, self.order)
        if cause or step.kind not in "du":
            return cause
        return 3 if self.name_of(frozenset(step.literals)) is None else None

    def cause_of_clause(self, step, order):
        if step.kind in "er":
            return None
        clause = frozenset(step.literals)
        name = None
        if step.kind in "du":
            name = self.name_of(clause)
            if name is None:
                return 3
        rest = self.rest(name)
        first = step.literals[0] if step.literals else None
        if step.kind == "u":
            return None if self.may_drop(order, rest, clause, first) else 5
        if is_implied(rest, clause):
            return None
        fits = first is not None and order.quantifier[abs(first)] == "e" and is_pivot(order, rest, clause, first)
        return None if fits else 4

    def may_drop(self, order, rest, clause, first):
        if order.quantifier[abs(first)] == "e":
            return False
        return self.is_universal_pivot(order, rest, clause, first) or is_reducible(order, rest, clause, first)

    def is_universal_pivot(self, order, rest, clause, first):
        return -first not in clause and is_pivot(order, rest, clause - {first}, first)

    def is_extended(self, step):
        """Whether a valid drop is neither by a universal pivot nor plain."""
        order, clause, first = self.order, frozenset(step.literals), step.literals[0]
        inner = any(order.quantifier[abs(k)] == "e" and not order.outer_or_same(abs(k), abs(first)) for k in clause)
        rest = self.rest(self.name_of(clause))
        return (inner or -first in clause) and not self.is_universal_pivot(order, rest, clause, first)

    def make(self, step, name=None, is_judged=True):
        """Makes a step; a valid one, where it was judged."""
        if is_judged and step.kind == "u" and self.extended is None and self.is_extended(step):
            self.extended = step.line
        clause = frozenset(step.literals)
        if step.kind == "add":
            self.clauses[self.next] = clause
            self.next += 1
        elif step.kind == "d":
            del self.clauses[name or self.name_of(clause)]
        elif step.kind == "u":
            self.clauses[name or self.name_of(clause)] = clause - {step.literals[0]}
        elif step.kind == "e":
            at = next(i for i, (_, v) in enumerate(self.prefix) if v == step.literals[1])
            self.prefix.insert(at + 1, ("e", step.literals[0]))
            self.order = Order(self.prefix)
        else:
            self.prefix = [(q, v) for q, v in self.prefix if v != step.literals[0]]
            self.order = Order(self.prefix)

    def hinted_making_cause(self, hinted):
        """The least cause for which a step with its proof part can't be made, whoever judges it, or None."""
        step = hinted.step
        cause = self.cause_of_variables(step, self.order)
        if cause or step.kind not in "du":
            return cause
        return None if self.clauses.get(hinted.name) == frozenset(step.literals) else 3

    def hinted_cause(self, hinted):
        """The least cause for a step with its proof part, or None."""
        step, order = hinted.step, self.order
        cause = self.hinted_making_cause(hinted)
        if cause or step.kind in "er":
            return cause
        clause = frozenset(step.literals)
        first = step.literals[0] if step.literals else None
        others = {n: c for n, c in self.clauses.items() if n != hinted.name}
        if step.kind == "u":
            if order.quantifier[abs(first)] == "e":
                return 5
            if hinted.proof[0] == 3:
                return None if is_reducible(order, list(others.values()), clause, first) else 5
        return None if self.is_shown(hinted, order, clause, first, others) else 12

    def is_shown(self, hinted, order, clause, first, others):
        kind, *rest = hinted.proof
        if kind == 1:
            return hinted.step.kind != "u" and chains(others, clause, rest[0])
        if kind == 3 or first is None:
            return False
        universal = hinted.step.kind == "u"
        if (order.quantifier[abs(first)] == "a") != universal or universal and -first in clause:
            return False
        start = clause - {first} if universal else clause
        wanted = [n for n, c in others.items() if -first in c]
        return wanted == [n for n, _ in rest[0]] and all(
            chains(others, start | outer_clause(order, others[n], -first), hints) for n, hints in rest[0])

    def cause_at_end(self, output):
        mine = [(q, sorted(run)) for q, run in blocks(self.prefix)]
        if mine != [(q, sorted(run)) for q, run in blocks(output.prefix)]:
            return 9
        return 10 if Counter(self.clauses.values()) != Counter(output.matrix) else None

    def formula(self):
        return Formula(self.prefix, list(self.clauses.values()))


def chains(clauses, clause, hints):
    """Whether the hints show the clause, each of them in its place."""
    if is_tautology(clause):
        return not hints
    known = {-literal for literal in clause}
    for place, hint in enumerate(hints, 1):
        if hint not in clauses:
            return False
        left = [k for k in clauses[hint] if -k not in known]
        if not left:
            return place == len(hints)
        if len(left) > 1:
            return False
        known.add(left[0])
    return False


Judged = namedtuple("Judged", "refusal steps extended")  # the refusal is 'line L cause K' or 'end cause K', or None

BLOCK = 1000
WHOLE = (1, 1)


def is_own(part, place):
    """Whether a step is one of a part I/N: its blocks are dealt in turn."""
    return place // BLOCK % part[1] == part[0] - 1


def judge(formula, output, text, plain_alone=False, part=WHOLE):
    """What a check says of a log, or of a part of it; the steps are those of the part."""
    run, words, steps, place = Run(formula), Words(text), 0, 0
    hinted = is_hinted(text)
    try:
        if hinted and not plain_alone:
            read_header(words)
        while not words.is_over():
            if hinted and not plain_alone:
                found = read_hinted(words)
                step, name = found.step, found.name
                cause = run.hinted_cause(found) if is_own(part, place) else run.hinted_making_cause(found)
            else:
                step, name = read_step(words), None
                cause = run.cause(step) if is_own(part, place) else run.making_cause(step)
            if cause:
                raise Refused(step.line, cause)
            run.make(step, name, is_own(part, place))
            steps += is_own(part, place)
            place += 1
    except Refused as refused:
        return Judged(f"line {refused.refusal.line} cause {refused.refusal.cause}", steps, None)
    cause = run.cause_at_end(output)
    return Judged(f"end cause {cause}" if cause else None, steps, run.extended)


def cause_in_refutation(run, found):
    """The least cause for a step, or for one with its proof part; a deletion needs no reason."""
    if isinstance(found, Hinted):
        cause = run.hinted_cause(found)
        return None if found.step.kind == "d" and cause == 12 else cause
    return run.making_cause(found) if found.kind == "d" else run.cause(found)


def refute(formula, steps):
    """What is said of a refutation: the steps, from a text or from bytes, each with its line, with proof parts or without."""
    run, count = Run(formula), 0
    try:
        while frozenset() not in run.clauses.values():
            found = next(steps, None)
            if found is None:
                return Judged("end cause 11", count, None)
            step, name = (found.step, found.name) if isinstance(found, Hinted) else (found, None)
            cause = cause_in_refutation(run, found)
            if cause:
                raise Refused(step.line, cause)
            run.make(step, name)
            count += 1
    except Refused as refused:
        return Judged(f"line {refused.refusal.line} cause {refused.refusal.cause}", count, None)
    return Judged(None, count, run.extended)


def whole_steps(text):
    """The whole steps of a log of either profile; then the line on which it breaks off, or of a bad line, if there is one, and whether it is bad."""
    words, hinted, steps = Words(text), is_hinted(text), []
    try:
        if hinted:
            read_header(words)
        while not words.is_over():
            steps.append(read_hinted(words).step if hinted else read_step(words))
    except Refused as refused:
        # the last word may go on, where nothing stands behind it
        may_go_on = words.at == len(words.words) - 1 and tokens(text + b"1")[0][-1][1] == words.words[-1][1] + b"1"
        return steps, refused.refusal.line, not (words.is_over() or may_go_on)
    return steps, None, False


def apply(formula, text):
    """The formula behind the steps of a log, their number, what is refused of them, and the line on which the log breaks off."""
    steps, line, is_bad = whole_steps(text)
    run = Run(formula)
    for step in steps:
        cause = run.making_cause(step)
        if cause:
            return None, 0, f"line {step.line} cause {cause}", None
        run.make(step, None, False)
    if is_bad:
        return None, 0, f"line {line} cause 1", None
    return run.formula(), len(steps), None, line


def text_steps(text):
    """The steps of a log, one after the other."""
    words = Words(text)
    while not words.is_over():
        yield read_step(words)


def hinted_steps(text):
    """The same of a log with hints, with their proof parts."""
    words = Words(text)
    read_header(words)
    while not words.is_over():
        yield read_hinted(words)


def is_binary(text):
    """Whether a proof is in bytes, by the first two of them."""
    return text[:1] == b"a" or text[:1] == b"d" and text[1:2] not in (b"", b" ", b"\t", b"\r", b"\n")


def binary_steps(text):
    """The steps of a proof in bytes; the line of each is its number."""
    at, line = 0, 0

    def group():
        nonlocal at
        value, shift = 0, 0
        while shift < 35 and at < len(text):
            byte = text[at]
            at, value, shift = at + 1, value | (byte & 127) << shift, shift + 7
            if byte < 128:
                return value
        raise Refused(line, 1)

    while at < len(text):
        line += 1
        kind = {b"a": "add", b"d": "d"}.get(text[at : at + 1])
        if kind is None:
            raise Refused(line, 1)
        at, row = at + 1, []
        while (value := group()) != 0:
            if value == 1 or value // 2 > MOST_LITERAL:
                raise Refused(line, 1)
            row.append(-(value // 2) if value & 1 else value // 2)
        yield Step(line, kind, row)
