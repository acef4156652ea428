"""Makes formulas, logs and circuits by chance, and spoils them."""
import re

import circuits
import formulas
import logs

# words that may stand in place of another one
STRANGE = [b"0", b"1", b"-1", b"2", b"-0", b"+1", b"00", b"007", b"-03", b"1x", b"x", b"-", b"e", b"a", b"d", b"u", b"r", b"p", b"c", b"cnf", b"qrat",
           b"16777215", b"16777216", b"33554433", b"2147483647", b"2147483648", b"4611686018427387904", b"99999999999999999999", b"SAT", b"UNSAT"]


def signed(rng, variables):
    return rng.choice((-1, 1)) * rng.choice(variables)


def gates(rng, variables, count):
    """Clauses of conjunctions and of equivalences, whose outputs are variables too."""
    clauses = []
    for _ in range(count):
        out, left, right = (signed(rng, variables) for _ in range(3))
        if rng.random() < 0.5:
            clauses += [{-out, left}, {-out, right}, {out, -left, -right}]
        else:
            clauses += [{-out, left}, {out, -left}]
    return clauses


def formula(rng, most=8):
    """A small formula."""
    count = rng.randint(1, most)
    variables = list(range(1, count + 1))
    rng.shuffle(variables)
    share, quantifier, prefix = rng.random(), rng.choice("ae"), []
    for v in variables:
        quantifier = {"a": "e", "e": "a"}[quantifier] if rng.random() < share else quantifier
        prefix.append((quantifier, v))
    clauses = [{signed(rng, variables) for _ in range(rng.choice((1, 2, 2, 3, 3, 3, 4, 5)))}
               for _ in range(rng.randint(0, rng.choice((4, 8, 12))))]
    if rng.random() < 0.4:
        clauses += gates(rng, variables, rng.randint(1, 3))
    if clauses and rng.random() < 0.2:
        clauses.append(set(rng.choice(clauses)))
    if rng.random() < 0.03:
        clauses.append(set())
    rng.shuffle(clauses)
    return prefix, [list(c) for c in clauses]


def spaced(rng, words):
    return rng.choice((" ", " ", " ", "  ", "\t", " \r")).join(words)


def text_of(rng, made):
    """A text of a formula, written as people write."""
    prefix, clauses = made
    free = rng.random() < 0.1
    bound = [(q, v) for q, v in prefix if not (free and q == "e" and rng.random() < 0.5)]
    most = max([v for _, v in prefix]) + rng.choice((0, 0, 0, 5))
    neat = rng.random() < 0.7
    lines = [] if neat else ["c a comment"]
    lines.append(f"p cnf {most} {len(clauses)}")
    for q, run in formulas.blocks(bound):
        rows = [run] if neat or rng.random() < 0.7 else [[v] for v in run]
        lines += [" ".join([q, *map(str, row), "0"]) for row in rows]
    for clause in clauses:
        rng.shuffle(clause)
        extra = clause[:1] if not neat and rng.random() < 0.2 else []
        words = [str(k) for k in clause + extra] + ["0"]
        lines.append(" ".join(words) if neat else spaced(rng, words))
    return ("\n".join(lines) + ("\n" if neat or rng.random() < 0.8 else "")).encode()


def step_text(step):
    words = ([] if step.kind == "add" else [step.kind]) + [str(k) for k in step.literals] + ["0"]
    return " ".join(words)


def some_step(rng, run):
    """A step that may be valid."""
    variables = [v for _, v in run.prefix] or [1]
    clause = list(rng.choice(list(run.clauses.values()) or [frozenset()]))
    rng.shuffle(clause)
    kind = rng.choice(("add", "add", "d", "d", "d", "u", "e", "r"))
    if kind == "add":
        row = clause + [signed(rng, variables)] if rng.random() < 0.4 else [signed(rng, variables) for _ in range(rng.randint(1, 4))]
        return logs.Step(0, kind, row)
    if kind == "e":
        return logs.Step(0, kind, [rng.choice((max(variables) + 1, rng.choice(variables))), rng.choice(variables)])
    if kind == "r":
        return logs.Step(0, kind, [rng.choice(variables)])
    return logs.Step(0, kind, clause or ([1] if kind == "u" else []))


def walk(rng, start):
    """A log of valid steps by chance, and the formula to which it leads."""
    run, lines = logs.Run(start), []
    for _ in range(rng.randint(1, 60)):
        step = some_step(rng, run)
        if run.cause(step) is None:
            lines.append(step_text(step) + "\n")
            run.make(step)
    for _, v in list(run.prefix):
        step = logs.Step(0, "r", [v])
        if run.cause(step) is None:
            lines.append(step_text(step) + "\n")
            run.make(step)
    return "".join(lines).encode(), formulas.canonical(run.formula())


def resolvent(rng, run):
    """A clause that two clauses give, mostly; its first literal is one of them."""
    clauses = list(run.clauses.values()) or [frozenset()]
    one, other = rng.choice(clauses), rng.choice(clauses)
    clash = [k for k in one if -k in other]
    row = list(one - {clash[0]} | other - {-clash[0]}) if clash else list(one)
    rng.shuffle(row)
    return row[1:] if rng.random() < 0.3 else row


def refutation(rng, start):
    """A log of steps that are valid but for deletions, which need no reason; the last one may be the empty clause."""
    run, lines = logs.Run(start), []
    for _ in range(rng.randint(1, 50)):
        step = logs.Step(0, "add", resolvent(rng, run)) if rng.random() < 0.7 else some_step(rng, run)
        cause = run.making_cause(step) if step.kind == "d" and rng.random() < 0.5 else run.cause(step)
        if cause is None:
            lines.append(step_text(step) + "\n")
            run.make(step)
        if step.kind != "d" and run.cause(logs.Step(0, "add", [])) is None and rng.random() < 0.8:
            lines.append("0\n")
            break
    return "".join(lines).encode()


def in_bytes(text):
    """The additions and deletions of a log as a binary proof."""
    def group(value):
        return bytes([value]) if value < 128 else bytes([value & 127 | 128]) + group(value >> 7)

    steps = [step for step in logs.text_steps(text) if step.kind in ("add", "d")]
    rows = [(b"a" if step.kind == "add" else b"d") + b"".join(group(2 * abs(k) + (k < 0)) for k in step.literals) + b"\0" for step in steps]
    return b"".join(rows)


def padding(rng, start):
    """So many valid steps that a block of them ends near what stands behind; they leave the formula as it was."""
    if not start.prefix:
        return b""
    v = rng.choice(start.prefix)[1]
    pairs = (logs.BLOCK * rng.randint(1, 3) - rng.choice((0, 0, 2, 4, 6, 20))) // 2
    return (f"{v} {-v} 0\nd {v} {-v} 0\n" * pairs).encode()


def some_circuits(rng, given, owner):
    """Circuits for a formula, most of them winning."""
    return circuits.strategy(given, owner, rng, rng.choice((0.0, 0.0, 0.0, 0.2, 1.0)))


def spoil_words(rng, text):
    """One word goes, comes twice, or is another one."""
    spans = [m.span() for m in re.finditer(rb"[^ \t\r\n]+", text)]
    if not spans:
        return text
    start, end = rng.choice(spans)
    way = rng.random()
    if way < 0.3:
        return text[:start] + text[end:]
    if way < 0.45:
        return text[:end] + b" " + text[start:end] + text[end:]
    if way < 0.6:
        other, stop = rng.choice(spans)
        return text[:start] + text[other:stop] + text[end:]
    if way < 0.75 and text[start:end].lstrip(b"-").isdigit():
        return text[:start] + str(int(text[start:end]) + rng.choice((-1, 1, 2))).encode() + text[end:]
    return text[:start] + rng.choice(STRANGE) + text[end:]


def spoil_lines(rng, text):
    """One line goes, comes twice or moves."""
    lines = text.splitlines(keepends=True)
    if not lines:
        return b"\n"
    here, there = rng.randrange(len(lines)), rng.randrange(len(lines))
    way = rng.random()
    if way < 0.4:
        del lines[here]
    elif way < 0.7:
        lines.insert(there, lines[here])
    else:
        lines[here], lines[there] = lines[there], lines[here]
    return b"".join(lines)


def spoil_bytes(rng, text):
    """Bytes of which one goes, is another one, or comes twice."""
    if not text:
        return b"a"
    at = rng.randrange(len(text))
    return text[:at] + rng.choice((b"", bytes([rng.randrange(256)]), text[at : at + 1] * 2, b"\0", b"\xff\xff")) + text[at + 1 :]


def spoil(rng, text):
    """A text with one to three mistakes."""
    for _ in range(rng.choice((1, 1, 1, 2, 3))):
        way = rng.random()
        if way < 0.55:
            text = spoil_words(rng, text)
        elif way < 0.85:
            text = spoil_lines(rng, text)
        elif way < 0.92:
            text = text[:rng.randint(0, len(text))]
        else:
            at = rng.randint(0, len(text))
            text = text[:at] + rng.choice((b"\n", b" ", b"\r", b"c ", b"\nc x\n", b"\x00", b"\xff", b"0", b"-", b"\t")) + text[at:]
    return text


def spoil_log(rng, text, start):
    """A log with a step by chance somewhere, or with mistakes."""
    if rng.random() < 0.5:
        return spoil(rng, text)
    lines = text.splitlines(keepends=True)
    step = some_step(rng, logs.Run(start))
    lines.insert(rng.randint(0, len(lines)), (step_text(step) + "\n").encode())
    return b"".join(lines)
