"""What each command has to answer to a case, by the reference: a case is a command with its options and the files that it reads."""
import itertools
import os
from collections import namedtuple

import circuits
import formulas
import logs

# files: name -> bytes, None for one that is missing, or FOLDER; fault: the place where a written file goes, or None; left: the written files that
# nobody wants, for which the launcher names the null device
Case = namedtuple("Case", "verb options files fault left", defaults=[frozenset()])
Answer = namedtuple("Answer", "status line files")  # files: name -> bytes of the written ones that are there
FOLDER = "a folder"

# the commands of the launcher alone, and the words of those that are none of the table: `disprove` with circuits, `annotate` of a proof
LAUNCHER = ("certify", "mend")
WORDS = {"certified": "disprove", "shown": "annotate"}


def operands():
    """The files that each command reads and writes, by the table of words. One that may be wanting is written by the command of its own."""
    reads, writes = {}, {}
    with open(os.path.join(os.path.dirname(os.path.realpath(__file__)), "../../launcher/words.txt"), encoding="utf-8") as table:
        for line in table:
            word, _, rest = line.partition(" | ")
            if line[:1].islower() and word not in LAUNCHER:
                names = rest.split("|")[0].split()
                word = "shown" if word == "annotate" and "<PROOF" in names else word
                reads[word] = [name[1:] for name in names if name[0] == "<"]
                writes[word] = [name[1:].partition("=")[0] for name in names if name[0] == ">" and name[-1] != "="]
    return {**reads, "certified": reads["disprove"]}, {**writes, "certified": ["CERT"]}


READS, WRITES = operands()


class Wrong(Exception):
    """What is wrong with an answer."""


class Told(Exception):
    """The command has to end here, with this status and line."""

    def __init__(self, status, line):
        super().__init__(status, line)
        self.status, self.line = status, line


def want(holds, what):
    if not holds:
        raise Wrong(what)


def held(case, name):
    """The bytes of a file that is read."""
    found = case.files[name]
    if not isinstance(found, bytes):
        raise Told(4, "read fault")
    return found


def formula_in(case, name):
    text = held(case, name)
    try:
        return formulas.read(text)
    except formulas.Refused as refused:
        raise Told(3, f"input {name} line {refused.refusal.line} cause {refused.refusal.cause}") from None


def circuits_in(case, name):
    text = held(case, name)
    try:
        return circuits.read(text)
    except formulas.Refused as refused:
        raise Told(7, f"circuits line {refused.refusal.line} cause {refused.refusal.cause}") from None


def fitting(given, found, owner):
    why = circuits.misfit(given, found, owner)
    if why:
        raise Told(7, f"circuits {why}")


def part_of(case):
    """The part of a log that is judged."""
    word = next((o.removeprefix("--part=") for o in case.options if o.startswith("--part=")), "1/1")
    return tuple(int(n) for n in word.split("/"))


def log_in(case, plain_alone=False):
    """The formulas and what is to be said of the log between them."""
    start, end = formula_in(case, "IN"), formula_in(case, "OUT")
    judged = logs.judge(start, end, held(case, "LOG"), plain_alone, part_of(case))
    if judged.refusal:
        raise Told(1, f"refused {judged.refusal}")
    return start, end, judged


def number_behind(line, word):
    """The number of a line that is this word and a number."""
    words = line.split(" ")
    want(len(words) == 2 and words[0] == word and words[1].isdigit(), f"a line '{word} N'")
    return int(words[1])


def option(case, name, default):
    return next((int(o.split("=")[1]) for o in case.options if o.startswith(f"--{name}=")), default)


def written(answer, name):
    want(name in answer.files, f"a file {name}")
    return answer.files[name]


def written_formula(answer, name):
    """A formula that was written, in its canonical text."""
    text = written(answer, name)
    found = formulas.read(text)
    want(formulas.canonical(found) == text, f"the canonical text in {name}")
    return found


def are_right(case, answer, right, given, owner, gates):
    """Whether circuits that were written are right; of those that nobody wants nothing is known."""
    return "CERT" in case.left or right(given, written_circuits(answer, given, owner, gates))


def written_circuits(answer, given, owner, gates):
    """Circuits that were written, in their canonical order, with so many gates if that is told."""
    found = circuits.read(written(answer, "CERT"))
    want(found.inputs == [v for q, v in given.prefix if q != owner], "inputs in the order of the prefix")
    want(list(found.outputs) == [v for q, v in given.prefix if q == owner], "outputs in the order of the prefix")
    want(circuits.misfit(given, found, owner) is None, "circuits that fit")
    want(gates is None or len(found.gates) == gates, "as many gates as are told")
    want(set(found.gates) <= circuits.cone(found.gates, list(found.outputs.values())), "no gate that no output needs")
    return found


def simplify(case, answer):
    start = formula_in(case, "IN")
    grow, expand, budget = (option(case, n, d) for n, d in (("grow", 0), ("expand", 16), ("budget", None)))
    end = written_formula(answer, "OUT")
    first, last = (formulas.measure(f, grow, expand) for f in (start, end))
    plain = "--plain" in case.options
    stopped = plain and answer.line.startswith("stopped ")
    words = {0: "settled", 10: "true", 20: "false", 2: "stopped" if stopped else "spent"}
    want(answer.status in words, "status 0, 2, 10 or 20")
    want(answer.line == f"{words[answer.status]} {first} {last}", f"'{words[answer.status]} {first} {last}'")
    want((answer.status == 10) == (end.matrix == []), "true where no clause is left")
    want((answer.status == 20) == (end.matrix == [frozenset()]), "false where the empty clause is left")
    want(answer.status != 2 or stopped or budget is not None and first - last >= budget, "spent where the budget is, or stopped in a plain run")
    want(formulas.is_true(start) == formulas.is_true(end), "one truth value")
    judged = None if "LOG" in case.left else logs.judge(start, end, written(answer, "LOG"))
    want(judged is None or judged.refusal is None, f"a right log, and not {judged and judged.refusal}")
    want(judged is None or not plain or judged.extended is None, "no extended reduction in a plain run")


def check(case, answer):
    start, end, judged = log_in(case)
    want(part_of(case)[1] > 1 or formulas.is_true(start) == formulas.is_true(end), "one truth value")
    raise Told(0, f"verified {judged.steps}")


def annotate(case, answer):
    start, end, judged = log_in(case, plain_alone=True)
    want((answer.status, answer.line) == (0, f"annotated {judged.steps}"), f"'annotated {judged.steps}'")
    text = written(answer, "HINTED")
    place, parts = part_of(case)
    if place > 1 or parts > 1 and judged.steps >= logs.BLOCK:
        # the lines of a part are no whole log
        lines = text.splitlines()
        want(len(lines) == judged.steps + (place == 1), "a line for each step of the part")
        want((lines[:1] == [b"p qrat 2"]) == (place == 1), "the header in the first part")
        return
    hinted = logs.judge(start, end, text)
    want(logs.is_hinted(text) and hinted.refusal is None, f"a right log with hints, and not {hinted.refusal}")
    want(hinted.steps == judged.steps, "as many steps")


def rebuild(case, answer):
    start, end, _ = log_in(case)
    given = circuits_in(case, "SKOLEM")
    fitting(end, given, "e")
    if frozenset() in end.matrix:
        raise Told(7, "circuits of a false output")
    want(answer.status == 0, "status 0")
    gates = number_behind(answer.line, "rebuilt")
    win = are_right(case, answer, circuits.are_skolem, start, "e", gates)
    want(not circuits.are_skolem(end, given) or win, "Skolem functions of IN")


def refute(case, answer):
    start, end, judged = log_in(case)
    if judged.extended:
        raise Told(8, f"extended line {judged.extended}")
    given = circuits_in(case, "HERBRAND")
    fitting(end, given, "a")
    if not end.matrix:
        raise Told(7, "circuits of a true output")
    want(answer.status == 0, "status 0")
    gates = number_behind(answer.line, "refuted")
    win = are_right(case, answer, circuits.are_herbrand, start, "a", gates)
    want(not circuits.are_herbrand(end, given) or win, "Herbrand functions of IN")


def validate(case, answer):
    start = formula_in(case, "IN")
    given = circuits_in(case, "CERT")
    fitting(start, given, "e")
    search = Search(start, given)
    lost, budget = search.run(()), option(case, "budget", None)
    want((lost is None) == circuits.are_skolem(start, given), "a search that finds what the tables say")
    if budget is not None and search.branches > budget:
        raise Told(12, "unknown")
    raise Told(*((0, "valid") if lost is None else (9, " ".join(["invalid", *map(str, lost)]))))


class Search:
    """The search for values of the inputs under which a clause is false: 0 before 1, and no further where all is known."""

    def __init__(self, formula, given):
        self.formula, self.given, self.branches = formula, given, 0
        self.universals = {v for q, v in formula.prefix if q == "a"}

    def value(self, literal, path):
        """The value of a literal of a circuit, or None."""
        base = literal & ~1
        if base == 0:
            value = False
        elif base in self.given.literals:
            place = self.given.inputs.index(self.given.literals[base])
            value = path[place] if place < len(path) else None
        else:
            pair = [self.value(n, path) for n in self.given.gates[base]]
            value = False if False in pair else None if None in pair else True
        return value if value is None else value != bool(literal & 1)

    def literal(self, literal, path):
        v = abs(literal)
        if v not in self.universals:
            value = self.value(self.given.outputs[v], path)
        elif v in self.given.inputs:
            place = self.given.inputs.index(v)
            value = path[place] if place < len(path) else None
        else:
            return False
        return value if value is None else value == (literal > 0)

    def clause(self, clause, path):
        """Whether a clause is true; None where that is open."""
        if any(-k in clause and abs(k) in self.universals and abs(k) not in self.given.inputs for k in clause):
            return True
        values = [self.literal(k, path) for k in clause]
        return True if True in values else None if None in values else False

    def run(self, path):
        """The literals of a counter below the path, or None."""
        values = [self.clause(c, path) for c in self.formula.matrix]
        if False in values:
            return self.counter(path, self.formula.matrix[values.index(False)])
        if None not in values:
            return None
        self.branches += 1
        found = self.run(path + (False,))
        return found if found is not None else self.run(path + (True,))

    def counter(self, path, clause):
        row = []
        for q, v in self.formula.prefix:
            if q == "a":
                if v in self.given.inputs:
                    place = self.given.inputs.index(v)
                    value = place < len(path) and path[place]
                else:
                    value = -v in clause
                row.append(v if value else -v)
        return row


def has_model(clauses, count):
    """Whether clauses have a model, by trying values of the first variables before the others."""
    known = {}
    changed = True
    while changed:
        changed, rest = False, []
        for clause in clauses:
            if any(known.get(abs(k)) == (k > 0) for k in clause if abs(k) in known):
                continue
            left = frozenset(k for k in clause if abs(k) not in known)
            if not left:
                return False
            if len(left) == 1:
                literal = next(iter(left))
                known[abs(literal)] = literal > 0
                changed = True
            rest.append(left)
        clauses = rest
    if not clauses:
        return True
    v = min(abs(k) for c in clauses for k in c)
    return any(has_model(clauses + [frozenset([k])], count) for k in (-v, v))


def miter(case, answer):
    start, owner = formula_in(case, "IN"), "a" if "--herbrand" in case.options else "e"
    given = circuits_in(case, "CERT")
    fitting(start, given, owner)
    want(answer.status == 0, "status 0")
    made = formulas.read(written(answer, "OUT"))
    want(answer.line == f"written {len(made.matrix)}", f"'written {len(made.matrix)}'")
    want(all(q == "e" for q, _ in made.prefix), "no sets")
    right = (circuits.are_skolem if owner == "e" else circuits.are_herbrand)(start, given)
    want(right != has_model(made.matrix, len(made.prefix)), "no model exactly where the circuits are right")


def solve(case, answer):
    start = formula_in(case, "IN")
    if "OUT" not in case.left:
        end = written_formula(answer, "OUT")
        want(formulas.is_true(start) == formulas.is_true(end), "one truth value")
        judged = None if "LOG" in case.left else logs.judge(start, end, written(answer, "LOG"))
        want(judged is None or judged.refusal is None, f"a right log, and not {judged and judged.refusal}")
    if answer.status == 12:
        want(answer.line == "unknown" and option(case, "budget", None) is not None, "unknown under a budget alone")
    elif formulas.is_true(start):
        want(answer.status == 10, "status 10")
        gates = number_behind(answer.line, "true")
        want(are_right(case, answer, circuits.are_skolem, start, "e", gates), "Skolem functions of IN")
    else:
        raise Told(20, "false")


def extract(case, answer):
    start = formula_in(case, "IN")
    held(case, "TRACE")
    if answer.status in (10, 20):
        owner, word = ("e", "true") if answer.status == 10 else ("a", "false")
        want(formulas.is_true(start) == (owner == "e"), "the truth")
        right = circuits.are_skolem if owner == "e" else circuits.are_herbrand
        want(are_right(case, answer, right, start, owner, number_behind(answer.line, word)), "circuits that win")
        return
    want((answer.status, answer.line.split(" ")[0]) in ((1, "refused"), (12, "unknown")), "a verdict or a refusal")
    want("CERT" not in answer.files, "no CERT")


def proof_steps(case, proof):
    """The steps of a proof; their proof parts where these are looked at."""
    if "--binary" in case.options or logs.is_binary(proof):
        return logs.binary_steps(proof)
    if not logs.is_hinted(proof):
        return logs.text_steps(proof)
    found = logs.hinted_steps(proof)
    return found if case.verb == "disprove" else (hinted.step for hinted in found)


def refuted(case):
    """The formula and what is to be said of the proof that it is false."""
    start = formula_in(case, "IN")
    if frozenset() in start.matrix:
        return start, logs.Judged(None, 0, None)  # no proof is read
    judged = logs.refute(start, proof_steps(case, held(case, "PROOF")))
    if judged.refusal:
        raise Told(1, f"refused {judged.refusal}")
    want(not formulas.is_true(start), "a false formula")
    return start, judged


def disprove(case, answer):
    _, judged = refuted(case)
    raise Told(20, f"false {judged.steps}")


def shown(case, answer):
    start, judged = refuted(case)
    want((answer.status, answer.line) == (0, f"annotated {judged.steps}"), f"'annotated {judged.steps}'")
    text = written(answer, "HINTED")
    want(logs.is_hinted(text) and len(text.splitlines()) == judged.steps + 1, "a log with hints, a line for each step")
    again = logs.refute(start, logs.hinted_steps(text))
    want(again.refusal is None and again.steps == judged.steps, f"a refutation of as many steps, and not {again}")
    wanted = itertools.islice(proof_steps(case, held(case, "PROOF")) if judged.steps else [], judged.steps)
    want([meaning(s) for s in wanted] == [meaning(h.step) for h in logs.hinted_steps(text)], "the steps of the proof")


def meaning(step):
    """A step without the order in which its literals stand behind the first one."""
    return step.kind, step.literals[:1], frozenset(step.literals)


def certified(case, answer):
    start, judged = refuted(case)
    if judged.extended:
        raise Told(8, f"extended line {judged.extended}")
    want(are_right(case, answer, circuits.are_herbrand, start, "a", None), "Herbrand functions of IN")
    raise Told(20, f"false {judged.steps}")


def apply(case, answer):
    start = formula_in(case, "IN")
    made, steps, refusal, broken = logs.apply(start, held(case, "LOG"))
    if refusal:
        raise Told(1, f"refused {refusal}")
    want(logs.Run(made).cause_at_end(written_formula(answer, "OUT")) is None, "the formula behind the steps")
    raise Told(0, f"applied {steps}" + (f" broken line {broken}" if broken else ""))


def is_generated(text, size):
    """Whether a text is a formula of the shape that `gen` promises."""
    found = formulas.read(text)
    n = 1 + size // 5
    kinds = [{0: 1, 1: 2, 2: 3, 3: 3}[(v - 1) // n] for v in range(1, 4 * n + 1)]
    shapes = [sorted(kinds[abs(k) - 1] for k in c) for c in found.matrix]
    return len(found.matrix) == size and all(shape in ([1, 2, 3, 3], [1, 2, 3]) for shape in shapes)


def gen(case, answer):
    size = int(case.options[1])
    want(is_generated(written(answer, "OUT"), size), "a formula of the promised shape")
    raise Told(0, f"generated {size}")


def demo(case, answer):
    size = int(case.options[1])
    want(is_generated(written(answer, "IN"), size), "a formula of the promised shape")
    start, end = formulas.read(answer.files["IN"]), written_formula(answer, "OUT")
    judged = logs.judge(start, end, written(answer, "LOG"))
    want(judged.refusal is None, f"a right log, and not {judged.refusal}")
    lines = answer.line.split("\n")
    first, last = (formulas.measure(f, 0, 16) for f in (start, end))
    word = "true" if not end.matrix else "false" if end.matrix == [frozenset()] else "settled"
    raise Told(0, "\n".join([f"generated {size}", f"{word} {first} {last}", f"verified {judged.steps}"]))


# the function of each command's name
JUDGES = {verb: globals()[verb] for verb in READS}


def judge(case, answer):
    """What is wrong with an answer, or None."""
    try:
        want(answer.status >= 0, "an end, and no crash")
        if case.fault and answer.status == 5:
            want(answer.line.split("\n")[-1] == "write fault", "'write fault'")
            refusal = first_refusal(case)
            want(refusal is None, f"'{refusal}' before a write fault")
            return None
        want(answer.status != 5, "no write fault")
        JUDGES[case.verb](case, answer)
    except Told as told:
        if (answer.status, answer.line) != (told.status, told.line):
            return f"wanted {told.status} '{told.line}'"
        if told.status not in (0, 10, 20) and set(answer.files) & made_last(case):
            return "wanted no file that is made behind all refusals"
    except Wrong as wrong:
        return f"wanted {wrong}"
    except formulas.Refused as refused:
        return f"wanted a file that can be read: {refused.refusal}"
    return None


def made_last(case):
    """The files that are made once nothing is refused."""
    if case.verb == "apply":
        return {"OUT"}
    return {"CERT", "HINTED"} & set(WRITES[case.verb]) if case.verb != "solve" else set()


def first_refusal(case):
    """What is said of the files that are read before anything is written, or None."""
    blank = Answer(0, "", {})
    try:
        JUDGES[case.verb](case, blank)
    except Told as told:
        return told.line if told.status in (1, 3, 4, 7, 8) else None
    except (Wrong, formulas.Refused):
        pass
    return None
