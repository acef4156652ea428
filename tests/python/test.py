"""Plays the module for Python beside brute force. One line a row: `ok NAME` or `wrong NAME`; status 1 where one is wrong.
Where CELDRINN_LIBRARY names the library, what it answers is compared with what the program does.
Usage: CELDRINN=.. [CELDRINN_LIBRARY=..] PYTHONPATH=.. python3 test.py [COUNT]"""
import itertools
import os
import random
import signal
import sys
import threading
import time

import celdrinn


def formula(r, is_large):
    """Small enough for brute force; or such that something is mostly left."""
    blocks, v = [], 1
    for _ in range(r.randint(1, 4)):
        n = r.randint(1, 4) * (3 if is_large else 1)
        q = r.choice("ae") if not blocks else ("a" if blocks[-1][0] == "e" else "e")
        blocks.append((q, list(range(v, v + n))))
        v += n
    free = r.choice((0, 0, 1))
    if blocks[-1][0] == "a" and is_large:
        blocks.append(("e", list(range(v, v + 12))))
        v += 12
    inner = blocks[-1][1]
    clauses = []
    for _ in range(r.randint(3 * v, 4 * v) if is_large else r.randint(0, 18)):
        row = r.sample(range(1, v + free), min(v - 1, 3 if is_large else r.randint(1, 4)))
        if is_large and row[0] not in inner:
            row = list(dict.fromkeys(row + [r.choice(inner)]))
        clauses.append([r.choice((1, -1)) * x for x in row])
    if r.random() < 0.05:
        clauses.append([])
    return clauses, blocks, v + free - 1


def truth(clauses, blocks, top):
    named = {x for _, vs in blocks for x in vs}
    order = [("e", x) for x in range(1, top + 1) if x not in named] + [(q, x) for q, vs in blocks for x in vs]

    def go(i, values):
        if any(all(values.get(abs(k)) is (k < 0) for k in c) for c in clauses):
            return False
        if i == len(order):
            return True
        q, x = order[i]
        results = (go(i + 1, {**values, x: b}) for b in (False, True))
        return any(results) if q == "e" else all(results)

    return go(0, {})


def has_model(clauses):
    top = max((abs(x) for c in clauses for x in c), default=0)
    return any(all(any(bits[abs(x) - 1] is (x > 0) for x in c) for c in clauses) for bits in itertools.product((False, True), repeat=top))


def are_skolem(clauses, blocks, cert):
    universals = [x for q, vs in blocks if q == "a" for x in vs]
    for bits in itertools.product((False, True), repeat=len(universals)):
        values = dict(zip(universals, bits))
        values.update(cert(values))
        if not all(any(values.get(abs(k), False) is (k > 0) for k in c) for c in clauses):
            return False
    return True


def by_program(call, *arguments, **options):
    """The same call by the program alone."""
    library = os.environ.get("CELDRINN_LIBRARY")
    os.environ["CELDRINN_LIBRARY"] = ""
    try:
        return call(*arguments, **options)
    finally:
        if library is None:
            del os.environ["CELDRINN_LIBRARY"]
        else:
            os.environ["CELDRINN_LIBRARY"] = library


def play_formula(r, k):
    """One random formula, simplified, checked, and where it is small decided, with circuits that are carried back."""
    is_large = k % 3 == 2
    clauses, blocks, top = formula(r, is_large)
    options = {}
    if k % 2 == 0:
        options = {name: r.randint(0, most) for name, most in (("grow", 40), ("expand", 40), ("budget", 60)) if r.random() < 0.7}
    a = celdrinn.simplify(clauses, blocks, **options)
    if os.environ.get("CELDRINN_LIBRARY"):
        b = by_program(celdrinn.simplify, clauses, blocks, **options)
        assert (a.status, a.line, a.out, a.log) == (b.status, b.line, b.out, b.log), "library and program"
    assert a.check() == a.log.count(b"\n"), "the number of steps"
    assert celdrinn.check(a.source, a.out, a.annotate()) == a.check(), "hints"
    if is_large:
        return
    is_true = truth(clauses, blocks, top)
    assert a.truth in (None, is_true), "truth"
    answer, skolem = celdrinn.solve(a.out)
    assert answer is is_true, "solve"
    if is_true:
        cert = a.rebuild(skolem)
        assert are_skolem(clauses, blocks, cert), "circuits are wrong"
        assert celdrinn.validate(a.source, cert) is True, "validate"
    elif a.status == "false":
        try:
            a.refute()
        except celdrinn.LogError as error:
            assert error.status == 8, "refute"


def play_formulas(count):
    r = random.Random(7)
    for k in range(count):
        play_formula(r, k)


def play_errors():
    for wrong, kind, place in (((b"p cnf 1 1\n1 x 0\n",), celdrinn.FormulaError, (2, 2)), (([[1, 0]],), celdrinn.FormulaError, (None, None)),
                               (([[1]], [("x", [1])]), celdrinn.FormulaError, (None, None))):
        try:
            celdrinn.simplify(*wrong)
        except kind as error:
            assert (error.line, error.cause) == place, error
        else:
            raise AssertionError(wrong)
    good = celdrinn.simplify([[1, 2], [-1, -2]], [("a", [1]), ("e", [2])])
    try:
        celdrinn.check(good.source, good.out, good.log[:-2])
    except celdrinn.LogError:
        pass
    else:
        raise AssertionError("a cut log")
    assert celdrinn.validate(good.source, b"aag 1 1 0 1 0\n2\n2\ni0 1\no0 2\n") in ([1], [-1]), "values"


def play_commands():
    """By hand: 2 is 1, 2 is not 1, and where 1 is false nothing serves. Each by the library, where it is named, and by the program."""
    same, differ = b"p cnf 2 2\na 1 0\ne 2 0\n1 -2 0\n-1 2 0\n", b"p cnf 2 2\na 1 0\ne 2 0\n1 2 0\n-1 -2 0\n"
    false = b"p cnf 2 2\na 1 0\ne 2 0\n1 2 0\n-2 0\n"
    trace = b"p qrp 2 2\na 1 0\ne 2 0\n1 1 2 0 0\n2 1 0 1 0\n3 -1 -2 0 0\n4 -1 0 3 0\n5 0 2 4 0\nr SAT\n"
    equal, inverse = b"aag 1 1 0 1 0\n2\n2\ni0 1\no0 2\n", b"aag 1 1 0 1 0\n2\n3\ni0 1\no0 2\n"
    for call in (lambda f, *a, **o: f(*a, **o), by_program):
        answer, cert = call(celdrinn.extract, same, trace)
        assert answer is True and [cert({1: v})[2] for v in (False, True)] == [False, True], "extract"
        assert call(celdrinn.extract, same, b"p qrp 2 2\na 1 0\ne 2 0\nr UNKNOWN\n") == (None, None), "unknown"
        assert call(celdrinn.disprove, b"p cnf 1 2\n1 0\n-1 0\n", b"0\n") == 1, "disprove"
        assert call(celdrinn.disprove, b"p cnf 1 2\n1 0\n-1 0\n", b"a\0", binary=True) == 1, "binary"
        hinted = call(celdrinn.annotate_proof, b"p cnf 3 2\na 1 0\ne 2 3 0\n1 0\n2 3 0\n", b"d 2 3 0\nu 1 0\nx\n")
        assert hinted == b"p qrat 2\nd 2 3 0 2 1 0\nu 1 0 1 3 0\n", "hints of a proof"
        assert len(call(celdrinn.annotate_proof, b"p cnf 1 2\n1 0\n-1 0\n", b"a\0", binary=True).splitlines()) == 2, "hints of a binary proof"
        assert not has_model(call(celdrinn.miter, differ, inverse)) and has_model(call(celdrinn.miter, differ, equal)), "miter"
        assert call(celdrinn.apply, differ, b"d 2 1 0\n") == b"p cnf 2 1\na 1 0\ne 2 0\n-1 -2 0\n", "apply"
        refuted = call(celdrinn.simplify, false)
        herbrand = call(celdrinn.refute, refuted.source, refuted.out, refuted.log, b"aag 0 0 0 0 0\n")
        assert refuted.truth is False and herbrand({})[1] is False, "refute"
        assert not has_model(call(celdrinn.miter, false, herbrand, herbrand=True)), "miter of Herbrand functions"
        assert call(celdrinn.validate, differ, inverse, budget=0) is None and call(celdrinn.validate, differ, inverse) is True, "a budget"
        assert len(celdrinn.read(call(celdrinn.generate, 3, 25))[0]) == 25, "gen"
        try:
            call(celdrinn.disprove, differ, b"")
        except celdrinn.LogError as error:
            assert (error.status, error.line, error.cause) == (1, None, 11), error
        else:
            raise AssertionError("a proof without an end")
    assert celdrinn.generate(3, 25) == by_program(celdrinn.generate, 3, 25), "library and program"


def play_moves():
    """By hand: one clause of two goes, and the list says which. The library alone takes one."""
    either = b"p cnf 2 2\ne 1 2 0\n1 0\n2 0\n"
    if os.environ.get("CELDRINN_LIBRARY"):
        for moves, left in ((["eliminate 1"], [[2]]), (b"eliminate 2\n", [[1]]), (["eliminate 7", "eliminate 2"], [[1]])):
            r = celdrinn.simplify(either, budget=1, moves=moves)
            assert (r.line, r.clauses) == ("spent 6 3", left) and r.check() >= 1, moves
        for wrong, place in ((["eliminate 1", "cut 0"], 2), (b"x", 1)):
            try:
                celdrinn.simplify(either, moves=wrong)
            except celdrinn.FormulaError as error:
                assert (error.status, error.line, error.cause) == (64, place, None), error
            else:
                raise AssertionError("a wrong line of moves")
    for wrong, options in ((celdrinn.NotFound, {}), (celdrinn.FormulaError, {"plain": True})):
        try:
            by_program(celdrinn.simplify, either, moves=["eliminate 1"], **options)
        except wrong:
            continue
        raise AssertionError("moves without the library, or in a plain run")


def play_texts():
    text = b"c a lamp\np cnf 2 2\na 1 0\ne 2 0\n1\n2 0 -1 -2 0\n"
    assert celdrinn.read(text) == ([[1, 2], [-1, -2]], [("a", [1]), ("e", [2])])
    assert celdrinn.write(*celdrinn.read(text)) == b"p cnf 2 2\na 1 0\ne 2 0\n1 2 0\n-1 -2 0\n"


def play_limits():
    r = random.Random(9)
    big = celdrinn.write([[r.choice((1, -1)) * x for x in r.sample(range(1, 100000), 3)] for _ in range(300000)])
    try:
        celdrinn.simplify(big, seconds=0.2)
    except celdrinn.Stopped as error:
        assert error.text == "stopped: time is over", error
        assert error.result is None or error.result.check() == error.result.log.count(b"\n"), "what a stopped call left"
    else:
        raise AssertionError("a limit of 0.2 seconds")


def play_interrupt():
    """Ctrl-C ends a call soon, also one of the library."""
    r = random.Random(11)
    big = celdrinn.write([[r.choice((1, -1)) * x for x in r.sample(range(1, 200000), 3)] for _ in range(600000)])
    began = []

    def interrupt():
        began.append(time.perf_counter())
        # a signal, as Ctrl-C is one: what the main thread waits for is broken off
        signal.pthread_kill(threading.main_thread().ident, signal.SIGINT)

    # a shell lets what it starts behind `&` ignore it
    signal.signal(signal.SIGINT, signal.default_int_handler)
    timer = threading.Timer(0.5, interrupt)
    timer.start()
    try:
        celdrinn.simplify(big)
    except KeyboardInterrupt:
        assert time.perf_counter() - began[0] < 10, "late"
    else:
        raise AssertionError("not interrupted")
    assert celdrinn.simplify([[1]]).truth is True, "the next call"


def play_threads():
    r = random.Random(13)
    source = celdrinn.write([[r.choice((1, -1)) * x for x in r.sample(range(1, 400), 3)] for _ in range(1200)])
    answers = []
    threads = [threading.Thread(target=lambda: answers.append(celdrinn.simplify(source))) for _ in range(3)]
    for thread in threads:
        thread.start()
    for thread in threads:
        thread.join()
    assert len(answers) == 3 and len({(a.line, a.out, a.log) for a in answers}) == 1


def main():
    count = int(sys.argv[1]) if len(sys.argv) > 1 else 150
    is_right = True
    for name, play in ((f"{count} formulas in Python", lambda: play_formulas(count)), ("commands in Python", play_commands), ("errors in Python", play_errors),
                       ("moves in Python", play_moves), ("texts in Python", play_texts), ("a limit in Python", play_limits), ("Ctrl-C in Python", play_interrupt),
                       ("threads in Python", play_threads)):
        try:
            play()
            print("ok", name)
        except Exception as error:  # a row that is wrong says why
            print(f"wrong {name}: {type(error).__name__} {error}")
            is_right = False
    return 0 if is_right else 1


sys.exit(main())
