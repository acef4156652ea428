"""Celdrinn from Python: a proved preprocessor for quantified Boolean formulas. One file, the standard library alone.

    >>> import celdrinn
    >>> r = celdrinn.simplify([[1, 2], [-1, -2]], [("a", [1]), ("e", [2])])
    >>> r.truth, r.clauses
    (True, [])
    >>> cert = r.rebuild()            # Skolem functions of the input
    >>> cert({1: True})
    {2: False}

A clause is an iterable of non-zero ints, a prefix a list of blocks ("a" or "e", variables), from the outermost in. Variables of no block
are existential and come first.

Calls go to the shared library, where it is found: CELDRINN_LIBRARY names it, else libceldrinn.so.1 is looked for beside this file and
where the system has its libraries. Where it is not, and with CELDRINN_LIBRARY empty, they run the program, which CELDRINN names, else
`celdrinn` of the PATH, over files in a folder of its own. Both do the same. A call can be interrupted with Ctrl-C, and `seconds` limits
it.
"""
from __future__ import annotations

import ctypes
import ctypes.util
import os
import re
import shutil
import subprocess
import tempfile
import threading
from dataclasses import dataclass, field
from typing import Any, Dict, Iterable, List, Mapping, Optional, Sequence, Tuple, Union

Block = Tuple[str, List[int]]
Clauses = Iterable[Iterable[int]]
Prefix = Sequence[Tuple[str, Iterable[int]]]

__all__ = ["simplify", "check", "rebuild", "refute", "annotate", "validate", "solve", "apply", "extract", "disprove",
           "annotate_proof", "miter", "generate", "read", "write", "Simplified", "Certificate",
           "CeldrinnError", "FormulaError", "LogError", "CircuitError", "OutOfMemory", "Stopped", "NotFound", "version"]


# --- errors ---

class CeldrinnError(Exception):
    """An answer that is no result. `text` is the line that the program would print, `status` its exit status; `line` and `cause` are the
    place and the number of a refusal, and None where there is none."""

    def __init__(self, text: str, status: int):
        super().__init__(text)
        self.text, self.status = text, status
        line, cause = re.search(r"line (\d+)", text), re.search(r"cause (\d+)", text)
        self.line: Optional[int] = int(line[1]) if line else None
        self.cause: Optional[int] = int(cause[1]) if cause else None


class FormulaError(CeldrinnError):
    """What was given is no formula, or an argument is out of range."""


class LogError(CeldrinnError):
    """The log doesn't lead from the one formula to the other, or can't be carried back."""


class CircuitError(CeldrinnError):
    """The circuits are none, or don't fit the formula."""


class OutOfMemory(CeldrinnError, MemoryError):
    """There was not enough memory."""


class Stopped(CeldrinnError):
    """A limit came first. `result` is what the steps until then led to, where that is known: a `Simplified`, of which `check` tells
    whether it is right; and else None."""

    result: Optional["Simplified"] = None


class NotFound(CeldrinnError):
    """What is asked for wants the program, and it was not found."""


_ERRORS = {1: LogError, 3: FormulaError, 6: OutOfMemory, 7: CircuitError, 8: LogError, 64: FormulaError}


# --- texts ---

def write(clauses: Clauses, prefix: Prefix = ()) -> bytes:
    """The formula as QDIMACS."""
    largest = 0
    blocks: List[Block] = []
    for quantifier, variables in prefix:
        row = list(variables)
        if quantifier not in ("a", "e"):
            raise FormulaError(f"a quantifier is 'a' or 'e', not {quantifier!r}", 64)
        if not row:
            continue
        if min(row) <= 0:
            raise FormulaError("a variable is above 0", 64)
        largest = max(largest, max(row))
        if blocks and blocks[-1][0] == quantifier:  # QDIMACS wants them to alternate
            blocks[-1][1].extend(row)
        else:
            blocks.append((quantifier, row))
    rows = []
    for clause in clauses:
        row = list(clause)
        if 0 in row:
            raise FormulaError("a clause holds no 0", 64)
        if row:
            largest = max(largest, max(row), -min(row))
        rows.append(" ".join(map(str, row + [0])))
    head = [f"p cnf {largest} {len(rows)}"]
    head += [f"{q} {' '.join(map(str, vs))} 0" for q, vs in blocks]
    return ("\n".join(head + rows) + "\n").encode()


def read(text: bytes) -> Tuple[List[List[int]], List[Block]]:
    """Clauses and prefix of a text in QDIMACS. It is read loosely: `simplify` of the text says whether it is a formula."""
    words: List[str] = []
    for row in text.decode().splitlines():
        if not row.lstrip().startswith(("c", "p")):
            words += row.split()
    prefix: List[Block] = []
    clauses: List[List[int]] = []
    numbers: List[int] = []
    for word in words:
        if word in ("a", "e"):
            prefix.append((word, []))
            numbers = prefix[-1][1]
        elif word == "0":
            if not prefix or numbers is not prefix[-1][1]:
                clauses.append(numbers)
            numbers = []
        else:
            numbers.append(int(word))
    return clauses, prefix


class Certificate:
    """Circuits in ASCII AIGER: called with values of the inputs, they give those of the outputs."""

    def __init__(self, text: bytes):
        self.text = text
        lines = text.decode().splitlines()
        _, _, i, latches, o, a = lines[0].split()[:6]
        if latches != "0":
            raise CircuitError("circuits have no latches", 7)
        inputs, outputs, gates = int(i), int(o), int(a)
        literals = [int(x) for x in lines[1:1 + inputs]]
        roots = [int(x) for x in lines[1 + inputs:1 + inputs + outputs]]
        behind = 1 + inputs + outputs + gates
        self._gates = [tuple(map(int, x.split())) for x in lines[behind - gates:behind]]
        names = dict(x.split(None, 1) for x in lines[behind:] if x[:1] in ("i", "o"))
        self._inputs = {int(names.get(f"i{k}", k)): x for k, x in enumerate(literals)}
        self._outputs = {int(names.get(f"o{k}", k)): x for k, x in enumerate(roots)}

    @property
    def inputs(self) -> List[int]:
        """The variables that are read."""
        return list(self._inputs)

    @property
    def outputs(self) -> List[int]:
        """The variables that have a circuit."""
        return list(self._outputs)

    @property
    def gates(self) -> int:
        return len(self._gates)

    def __call__(self, values: Mapping[int, bool]) -> Dict[int, bool]:
        at = {0: False, 1: True}

        def put(literal: int, value: bool) -> None:
            at[literal], at[literal ^ 1] = value, not value

        for variable, literal in self._inputs.items():
            put(literal, bool(values.get(variable, False)))
        for gate, left, right in self._gates:
            put(gate, at[left] and at[right])
        return {variable: at[literal] for variable, literal in self._outputs.items()}

    def __repr__(self) -> str:
        return f"<Certificate of {len(self._outputs)} functions, {len(self._gates)} gates>"


Circuits = Union[bytes, Certificate]


def _constants(model: Union[Mapping[int, bool], Iterable[int]], variables: Iterable[int]) -> bytes:
    """Circuits without inputs: each variable has its value in a model (literals, or a mapping), and 0 where it has none."""
    true = {v for v, b in model.items() if b} if isinstance(model, Mapping) else {x for x in model if x > 0}
    row = list(variables)
    lines = [f"aag 0 0 0 {len(row)} 0"] + ["1" if v in true else "0" for v in row]
    return ("\n".join(lines + [f"o{k} {v}" for k, v in enumerate(row)]) + "\n").encode()


# --- the program ---

@dataclass
class _Answer:
    """What a command answers: its exit status, its line, and the files that it made."""

    status: int
    line: str
    files: Dict[str, bytes]

    def wanted(self, *statuses: int) -> "_Answer":
        """Itself, where it has one of these statuses; else its error is raised."""
        if self.status in statuses:
            return self
        if self.line.startswith("stopped"):
            raise Stopped(self.line, self.status)
        raise _ERRORS.get(self.status, CeldrinnError)(self.line or f"status {self.status}", self.status)


# Which files a command takes, in the order of its words, and which it makes. Those of `gen` stand behind two numbers; what stands behind the
# verb tells apart what else it can take.
_TAKES = {"simplify": ["IN"], "check": ["IN", "OUT", "LOG"], "rebuild": ["IN", "OUT", "LOG", "SKOLEM"],
          "refute": ["IN", "OUT", "LOG", "HERBRAND"], "annotate": ["IN", "OUT", "LOG"], "validate": ["IN", "CERT"], "solve": ["IN"],
          "extract": ["IN", "TRACE"], "disprove": ["IN", "PROOF"], "annotate PROOF": ["IN", "PROOF"], "miter": ["IN", "CERT"],
          "apply": ["IN", "LOG"], "gen": []}
_MAKES = {"simplify": ["OUT", "LOG"], "rebuild": ["CERT"], "refute": ["CERT"], "annotate": ["HINTED"], "annotate PROOF": ["HINTED"],
          "solve": ["OUT", "LOG", "CERT"], "extract": ["CERT"], "miter": ["MITER"], "apply": ["OUT"], "gen": ["IN"]}
_SCALE = ["seed", "clauses"]


def _word(verb: str) -> str:
    return verb.split()[0]


def _words(verb: str, options: Mapping[str, int]) -> List[str]:
    """The words of a command behind its verb."""
    numbers = [str(options[name]) for name in _SCALE if name in options]
    flags = [f"--{name}" if value is True else f"--{name}={value}" for name, value in options.items()
             if name not in _SCALE and value is not False]
    return numbers + _TAKES[verb] + _MAKES.get(verb, []) + flags


class _Program:
    def __init__(self, path: str):
        self.path = path

    def run(self, verb: str, texts: Sequence[bytes], options: Mapping[str, int], seconds: Optional[float]) -> _Answer:
        """One command over files in a folder of its own."""
        with tempfile.TemporaryDirectory(prefix="celdrinn-") as folder:
            for name, text in zip(_TAKES[verb], texts):
                with open(os.path.join(folder, name), "wb") as it:
                    it.write(text)
            try:
                done = subprocess.run([self.path, _word(verb), *_words(verb, options)], cwd=folder, stdin=subprocess.DEVNULL, stdout=subprocess.PIPE,
                                      stderr=subprocess.DEVNULL, timeout=seconds, env={**os.environ, "CELDRINN_PROGRESS": "0"})
            except subprocess.TimeoutExpired:
                return _Answer(6, "stopped: time is over", {})
            files = {}
            for name in _MAKES.get(verb, []):
                path = os.path.join(folder, name)
                if os.path.exists(path):
                    with open(path, "rb") as it:
                        files[name] = it.read()
            return _Answer(done.returncode, done.stdout.decode().strip(), files)


def _program() -> _Program:
    path = os.environ.get("CELDRINN") or shutil.which("celdrinn")
    if path is None:
        raise NotFound("the program celdrinn is not found: name it in CELDRINN, or put it on the PATH", 127)
    return _Program(path)


# --- the library ---

class _Options(ctypes.Structure):
    """The options of celdrinn2.h, in its order."""

    _fields_ = [("size", ctypes.c_size_t), ("grow", ctypes.c_uint32), ("expand", ctypes.c_uint32), ("budget", ctypes.c_uint64),
                ("part", ctypes.c_uint32), ("parts", ctypes.c_uint32), ("herbrand", ctypes.c_uint32), ("binary", ctypes.c_uint32),
                ("seed", ctypes.c_uint64), ("clauses", ctypes.c_uint32), ("moves", ctypes.c_char_p), ("moves_length", ctypes.c_size_t)]


def _listing(moves: bytes) -> _Options:
    """The options that are there if nothing is said, and moves."""
    return _Options(ctypes.sizeof(_Options), 0, 16, 2 ** 64 - 1, 0, 0, 0, 0, 1, 1, moves, len(moves))


class _Library:
    """The shared library of packaging/lib. A call of it runs in a thread of its own, so that its caller can be interrupted meanwhile."""

    def __init__(self, path: str):
        self._lib = ctypes.CDLL(path)
        handle, count, size, text = ctypes.c_void_p, ctypes.c_int, ctypes.c_size_t, ctypes.c_char_p
        for name, result, arguments in (
                ("version", text, []), ("new", handle, []), ("free", None, [handle]), ("limit_seconds", None, [handle, ctypes.c_double]),
                ("stop", None, [handle]), ("set_options", count, [handle, ctypes.POINTER(_Options)]), ("set", count, [handle, text, ctypes.c_uint64]), ("put", count, [handle, text, text, size]),
                ("get", handle, [handle, text, ctypes.POINTER(size)]), ("do", count, [handle, text]), ("line", text, [handle])):
            call = getattr(self._lib, "celdrinn_" + name)
            call.restype, call.argtypes = result, arguments

    def version(self) -> str:
        return self._call("version").decode()

    def run(self, verb: str, texts: Sequence[bytes], options: Mapping[str, int], seconds: Optional[float], moves: bytes = b"") -> _Answer:
        handle = self._call("new")
        if not handle:
            return _Answer(6, "no memory", {})
        try:
            status = self._prepare(handle, verb, texts, options, seconds, moves)
            if status == 0:
                status = self._work(handle, verb)
            line = self._call("line", handle).decode()
            made = {name: self._bytes(handle, name) for name in _MAKES.get(verb, [])}
            return _Answer(status, line, {name: text for name, text in made.items() if text is not None})
        finally:
            self._call("free", handle)

    def _call(self, name: str, *arguments: Any) -> Any:
        return getattr(self._lib, "celdrinn_" + name)(*arguments)

    def _bytes(self, handle: int, name: str) -> Optional[bytes]:
        length = ctypes.c_size_t()
        at = self._call("get", handle, name.encode(), ctypes.byref(length))
        return ctypes.string_at(at, length.value) if at else None

    def _prepare(self, handle: int, verb: str, texts: Sequence[bytes], options: Mapping[str, int], seconds: Optional[float],
                 moves: bytes) -> int:
        self._call("limit_seconds", handle, seconds or 0.0)
        status = 0
        for name, text in zip(_TAKES[verb], texts):
            status = status or self._call("put", handle, name.encode(), text, len(text))
        if moves:
            status = status or self._call("set_options", handle, ctypes.byref(_listing(moves)))
        for option, value in options.items():
            status = status or self._call("set", handle, option.encode(), int(value))
        return status

    def _work(self, handle: int, verb: str) -> int:
        if threading.current_thread() is not threading.main_thread():
            return self._call("do", handle, _word(verb).encode())
        # An Event, since Thread.join says of a thread that it ended where a signal interrupts it (CPython 3.10 to 3.12 at least).
        answer: List[int] = []
        done = threading.Event()

        def work() -> None:
            try:
                answer.append(self._call("do", handle, _word(verb).encode()))
            finally:
                done.set()

        threading.Thread(target=work, daemon=True).start()
        try:
            while not done.wait(0.5):
                pass
        except BaseException:
            self._call("stop", handle)
            while not done.is_set():
                try:
                    done.wait()
                except KeyboardInterrupt:
                    pass
            raise
        return answer[0]


_libraries: Dict[str, _Library] = {}


def _library() -> Optional[_Library]:
    beside = os.path.join(os.path.dirname(os.path.abspath(__file__)), "libceldrinn.so.1")
    named = os.environ.get("CELDRINN_LIBRARY")
    path = named if named is not None else beside if os.path.exists(beside) else ctypes.util.find_library("celdrinn")
    if not path:
        return None
    if path not in _libraries:
        try:
            _libraries[path] = _Library(path)
        except (OSError, AttributeError) as error:  # no such file, or a library of another ABI
            if named is not None:
                raise NotFound(f"the library {path} can't be used: {error}", 127) from None
            return None
    return _libraries[path]


def version() -> str:
    """That of the library, where it is found, else that of the program."""
    library = _library()
    if library is not None:
        return library.version()
    return subprocess.run([_program().path, "--version"], stdout=subprocess.PIPE, check=True).stdout.decode().splitlines()[0]


_RANGES = {"grow": (0, 10000), "expand": (0, 10000), "budget": (0, 2 ** 64 - 1), "seed": (0, 2 ** 64 - 1), "clauses": (1, 100000)}


def _in_range(options: Mapping[str, Optional[int]]) -> Dict[str, int]:
    """Those that are said."""
    chosen = {name: value for name, value in options.items() if value is not None}
    for name, value in chosen.items():
        least, most = _RANGES.get(name, (0, 1))
        if not least <= value <= most:
            raise FormulaError(f"{name}={value} is out of range", 64)
    return chosen


def _run(verb: str, texts: Sequence[bytes], seconds: Optional[float], moves: bytes = b"", **options: Optional[int]) -> _Answer:
    chosen = _in_range(options)
    if moves:
        return _run_listed(verb, texts, seconds, moves, chosen)
    # the library has no alarm, by which a plain run ends
    player = _program() if chosen.get("plain") else _library() or _program()
    return player.run(verb, texts, chosen, seconds)


def _run_listed(verb: str, texts: Sequence[bytes], seconds: Optional[float], moves: bytes, options: Mapping[str, int]) -> _Answer:
    """The same under a list of moves, which the library alone takes."""
    if options.get("plain"):
        raise FormulaError("a plain run takes no list of moves", 64)
    library = _library()
    if library is None:
        raise NotFound("a list of moves wants the library libceldrinn.so.1, and it is not found", 127)
    return library.run(verb, texts, options, seconds, moves)


def _source(clauses: Union[Clauses, bytes], prefix: Prefix) -> bytes:
    return bytes(clauses) if isinstance(clauses, (bytes, bytearray)) else write(clauses, prefix)


def _circuits(given: Circuits) -> bytes:
    return given.text if isinstance(given, Certificate) else bytes(given)


# --- what is offered ---

@dataclass
class Simplified:
    """What `simplify` left. `status` is settled, true, false or spent, or of a stopped call stopped; `truth` is None where it is not
    known."""

    status: str
    line: str
    source: bytes = field(repr=False)
    out: bytes = field(repr=False)
    log: bytes = field(repr=False)

    @property
    def truth(self) -> Optional[bool]:
        return {"true": True, "false": False}.get(self.status)

    @property
    def measures(self) -> Optional[Tuple[int, int]]:
        """The measure before and after, where the run ended by itself."""
        words = self.line.split()
        return (int(words[1]), int(words[2])) if len(words) == 3 and words[1].isdigit() else None

    @property
    def clauses(self) -> List[List[int]]:
        return read(self.out)[0]

    @property
    def prefix(self) -> List[Block]:
        return read(self.out)[1]

    def check(self) -> int:
        """The number of steps of the log, which is checked; LogError where it is refused."""
        return check(self.source, self.out, self.log)

    def rebuild(self, skolem: Union[Circuits, Mapping[int, bool], Iterable[int]] = ()) -> Certificate:
        """Skolem functions of the input, from those of what is left: circuits, or where no universal is left, a solver's model."""
        if not isinstance(skolem, (bytes, bytearray, Certificate)):
            prefix = self.prefix
            if any(q == "a" for q, _ in prefix):
                raise CircuitError("universals are left: circuits are wanted, not a model", 7)
            skolem = _constants(skolem, [v for _, vs in prefix for v in vs])
        return rebuild(self.source, self.out, self.log, skolem)

    def refute(self, herbrand: Circuits = b"aag 0 0 0 0 0\n") -> Certificate:
        """Herbrand functions of the input, from those of what is left; none are wanted where the empty clause is left."""
        return refute(self.source, self.out, self.log, herbrand)

    def annotate(self) -> bytes:
        """The log with hints, which is checked much faster."""
        return annotate(self.source, self.out, self.log)


def simplify(clauses: Union[Clauses, bytes], prefix: Prefix = (), *, grow: Optional[int] = None, expand: Optional[int] = None,
             budget: Optional[int] = None, plain: Optional[bool] = None, seconds: Optional[float] = None,
             moves: Union[bytes, Iterable[str]] = ()) -> Simplified:
    """Takes rules as long as one applies.

    clauses: lists of ints, or a QDIMACS text as bytes. grow, expand, budget, plain: as the program's options. seconds: where this limit comes
    first, Stopped is raised; with the library its `result` has what was done until then. moves: what is tried first, each as "eliminate 3"
    (docs/FORMATS.md, "Lists of moves"), by the library alone; FormulaError where one is none, whose `line` is its number from 1."""
    source = _source(clauses, prefix)
    listed = bytes(moves) if isinstance(moves, (bytes, bytearray)) else "\n".join(moves).encode()
    answer = _run("simplify", [source], seconds, listed, grow=grow, expand=expand, budget=budget, plain=plain)
    is_stopped = answer.line.startswith("stopped:")
    if not is_stopped or answer.status != 2:
        answer.wanted(0, 2, 10, 20)
    result = Simplified(answer.line.split()[0].rstrip(":"), answer.line, source, answer.files["OUT"], answer.files["LOG"])
    if is_stopped:
        stopped = Stopped(answer.line, answer.status)
        stopped.result = result
        raise stopped
    return result


def check(source: bytes, out: bytes, log: bytes, *, seconds: Optional[float] = None) -> int:
    """The number of steps of a log that leads from one formula to the other; LogError or FormulaError where it doesn't."""
    return int(_run("check", [source, out, log], seconds).wanted(0).line.split()[1])


def rebuild(source: bytes, out: bytes, log: bytes, skolem: Circuits, *, seconds: Optional[float] = None) -> Certificate:
    """Skolem functions of a formula from those of what a log led to."""
    return Certificate(_run("rebuild", [source, out, log, _circuits(skolem)], seconds).wanted(0).files["CERT"])


def refute(source: bytes, out: bytes, log: bytes, herbrand: Circuits, *, seconds: Optional[float] = None) -> Certificate:
    """Herbrand functions of a false formula from those of what a log led to."""
    return Certificate(_run("refute", [source, out, log, _circuits(herbrand)], seconds).wanted(0).files["CERT"])


def annotate(source: bytes, out: bytes, log: bytes, *, seconds: Optional[float] = None) -> bytes:
    """A log with hints of a log that is right."""
    return _run("annotate", [source, out, log], seconds).wanted(0).files["HINTED"]


def validate(source: bytes, cert: Circuits, *, budget: Optional[int] = None, seconds: Optional[float] = None) -> Union[bool, None, List[int]]:
    """True where the circuits are Skolem functions of the formula; a list of literals, values of the universals that make a clause false,
    where they are not; None where the budget was too small."""
    answer = _run("validate", [source, _circuits(cert)], seconds, budget=budget).wanted(0, 9, 12)
    if answer.status == 9:
        return [int(word) for word in answer.line.split()[1:]]
    return True if answer.status == 0 else None


Decided = Tuple[Optional[bool], Optional[Certificate]]


def _decided(answer: _Answer, is_known: Mapping[int, Optional[bool]]) -> Decided:
    return is_known[answer.status], Certificate(answer.files["CERT"]) if "CERT" in answer.files else None


def solve(clauses: Union[Clauses, bytes], prefix: Prefix = (), *, budget: Optional[int] = None, seconds: Optional[float] = None) -> Decided:
    """The truth value of a small formula, and Skolem functions where it is true; None where the budget was too small."""
    answer = _run("solve", [_source(clauses, prefix)], seconds, budget=budget).wanted(10, 12, 20)
    return _decided(answer, {10: True, 12: None, 20: False})


def extract(source: bytes, trace: bytes, *, seconds: Optional[float] = None) -> Decided:
    """The truth value that a solver's resolution proof shows (text QRP), with Skolem functions of a true formula or Herbrand functions of a
    false one; None where the trace says that the solver did not know, LogError where it proves nothing."""
    answer = _run("extract", [source, trace], seconds).wanted(10, 12, 20)
    return _decided(answer, {10: True, 12: None, 20: False})


def apply(source: bytes, log: bytes, *, seconds: Optional[float] = None) -> bytes:
    """The formula to which the steps of a log lead, as a QDIMACS text."""
    return _run("apply", [source, log], seconds).wanted(0).files["OUT"]


def disprove(source: bytes, proof: bytes, *, binary: bool = False, seconds: Optional[float] = None) -> int:
    """The number of steps after which a SAT solver's proof, or a log, has shown that the formula is false; LogError where it doesn't."""
    return int(_run("disprove", [source, proof], seconds, binary=binary).wanted(20).line.split()[1])


def annotate_proof(source: bytes, proof: bytes, *, binary: bool = False, seconds: Optional[float] = None) -> bytes:
    """The same proof up to the empty clause as a log with hints, which `disprove` reads without a search; LogError where it shows nothing."""
    return _run("annotate PROOF", [source, proof], seconds, binary=binary).wanted(0).files["HINTED"]


def miter(source: bytes, cert: Circuits, *, herbrand: bool = False, seconds: Optional[float] = None) -> List[List[int]]:
    """Clauses that have no model exactly where the circuits are Skolem functions of the formula, or with `herbrand` Herbrand functions."""
    return read(_run("miter", [source, _circuits(cert)], seconds, herbrand=herbrand).wanted(0).files["MITER"])[0]


def generate(seed: int, clauses: int) -> bytes:
    """A random formula of so many clauses, as a QDIMACS text."""
    return _run("gen", [], None, seed=seed, clauses=clauses).wanted(0).files["IN"]
