#!/usr/bin/env python3
"""Plays the rows of crates/q_tests with the program over a real folder, beside what they say of files in memory.

    tests/disk/play.py PROGRAM TABLE ..

A row's files are made in a folder, its commands are run there, and what they answer and leave is what the row wants of files in memory. Each row is played
three times: over plain files; with what is read behind pipes that give few bytes at a time, which leaves the same; and with a limit on the size of files, where each command
does what it did, or says 'write fault' and leaves a front of what it left without a limit. Rows with planned faults, limits, guides or alarms are left to memory.
One line is put for each row, and one that counts them.
"""
import os
import re
import resource
import shutil
import subprocess
import sys
import tempfile
import threading

# the program takes other moves than rows do, which name their guides: what these leave is compared with itself
MOVING = ("simplify", "solve", "demo")
MEMORY_ALONE = ("fault", "limits", "guide", "guides", "memory", "ring", "alarm")
# so many bytes come in pieces, and the others at once
PIECE, FEW = 7, 70


class Wrong(Exception):
    """What a row wants, and what came."""


def bytes_of(text, held):
    """The bytes that a text of a row stands for."""
    if text.startswith("same as "):
        return held[text.removeprefix("same as ")]
    times = re.fullmatch(r"(\d+) times (.*)", text)
    if times:
        return int(times[1]) * bytes_of(times[2], held)
    if text == "":
        return b""
    text = text.removesuffix("\\-") if text.endswith("\\-") else text.replace(" / ", "\n") + "\n"
    text = text.replace(" / ", "\n")
    plain = {"r": "\r", "t": "\t", "n": "\n", "s": " "}
    text = re.sub(r"\\x([0-9a-f]{2})|\\([rtns])", lambda m: chr(int(m[1], 16)) if m[1] else plain[m[2]], text)
    return text.encode("latin-1")


def rows_of(table):
    """The rows of a table: a name, and lines."""
    name, lines = None, []
    with open(table, encoding="utf-8") as text:
        for line in text.read().split("\n"):
            if line.startswith("row "):
                if name:
                    yield name, lines
                name, lines = line.removeprefix("row "), []
            elif line and not line.startswith("#"):
                lines.append(line)
    if name:
        yield name, lines


def is_for_disk(lines):
    """Whether a row runs commands, and plans nothing that only memory can do."""
    words = {line.split(" ")[0].rstrip(":") for line in lines}
    return "run" in words and not words & set(MEMORY_ALONE)


class Folder:
    """A folder in which a row is played."""

    def __init__(self, program):
        self.program = os.path.realpath(program)
        self.top = tempfile.mkdtemp(prefix="disk-")
        self.limit = None
        self.pipes = False

    def close(self):
        shutil.rmtree(self.top)

    def path(self, name):
        return os.path.join(self.top, name)

    def read(self, name):
        try:
            with open(self.path(name), "rb") as text:
                return text.read()
        except FileNotFoundError:
            return None

    def write(self, name, held):
        with open(self.path(name), "wb") as out:
            out.write(held)

    def names(self):
        return sorted(os.listdir(self.top))

    def restrain(self):
        resource.setrlimit(resource.RLIMIT_FSIZE, (self.limit, self.limit))

    def run(self, words):
        """The status and the line of a command."""
        pipes = Pipes(self, words) if self.pipes else None
        try:
            done = subprocess.run([self.program, *words], cwd=self.top, stdin=subprocess.DEVNULL, stdout=subprocess.PIPE, stderr=subprocess.DEVNULL,
                                  timeout=120, check=False, restore_signals=False, preexec_fn=self.restrain if self.limit is not None else None)
        finally:
            if pipes:
                pipes.close()
        return done.returncode, done.stdout.decode("utf-8", "replace").removesuffix("\n")


def names_read():
    """How many names each command reads, by the table of words; what it writes may be read by a later line of the row."""
    with open(os.path.join(os.path.dirname(os.path.realpath(__file__)), "../../launcher/words.txt"), encoding="utf-8") as table:
        commands = [line.split("|") for line in table if re.match(r"[a-z]+ \|", line)]
    return {word.strip(): operands.count("<") for word, operands, *_ in commands}


READS = names_read()


class Pipes:
    """Pipes in place of the files that a command reads, for the time of its run."""

    def __init__(self, folder, words):
        names = [w for w in words[1:] if not w.startswith("--")][: READS.get(words[0], 0) if words else 0]
        self.folder, self.held, self.threads = folder, {}, []
        for name in names:
            held = folder.read(name)
            if held is not None and names.count(name) == 1 and words[1:].count(name) == 1:
                self.held[name] = held
                os.remove(folder.path(name))
                os.mkfifo(folder.path(name))
                self.threads.append(threading.Thread(target=self.feed, args=(name, held)))
        for thread in self.threads:
            thread.start()

    def feed(self, name, held):
        try:
            with open(self.folder.path(name), "wb", buffering=0) as out:
                for at in range(0, FEW, PIECE):
                    out.write(held[at:at + PIECE])
                out.write(held[FEW:])
        except BrokenPipeError:
            pass

    def close(self):
        """Lets feeders go that nobody reads, and puts the files back."""
        opened = [os.open(self.folder.path(name), os.O_RDONLY | os.O_NONBLOCK) for name in self.held]
        for thread, end in zip(self.threads, opened):
            while thread.is_alive():
                try:
                    os.read(end, 1 << 16)
                except BlockingIOError:
                    pass
                thread.join(0.001)
        for end in opened:
            os.close(end)
        for name, held in self.held.items():
            os.remove(self.folder.path(name))
            self.folder.write(name, held)


def is_wanted(wanted, moved, status, line):
    """Whether a status and a line are those of a row; behind other moves the numbers of a line may be others."""
    first, _, rest = wanted.partition(" ")
    if int(first) != status:
        return False
    if moved:
        return line.split(" ")[0] == rest.split(" ")[0]
    rest = rest.replace(" / ", "\n")
    return line.startswith(rest.removesuffix(" ..")) if rest.endswith(" ..") else line == rest


def play(folder, lines):
    """Plays the lines of a row, and hands on what each of its commands answered and left."""
    for name in folder.names():
        os.remove(folder.path(name))
    steps, moved = [], False
    for line in lines:
        doing, _, wanted = line.partition(" =>")
        wanted = wanted.removeprefix(" ")
        file = re.match(r"([^\s:+]+)(: ?| \+ ?)(.*)\Z", line)
        if line.startswith("run "):
            words = doing.split(" ")[1:]
            answer = folder.run(words)
            if folder.limit is None and not is_wanted(wanted, moved, *answer):
                raise Wrong(f"{doing}: wanted {wanted}, came {answer[0]} {answer[1]}")
            moved = moved or words[:1] and words[0] in MOVING
            steps.append((answer, {name: folder.read(name) for name in folder.names()}))
        elif line.startswith("show "):
            if folder.limit is None and not moved:
                show(folder, doing.removeprefix("show "), wanted)
        elif file and not line.startswith(("read ", "log ")):
            held = Held(folder)
            before = (folder.read(file[1]) or b"") if "+" in file[2] else b""
            folder.write(file[1], before + bytes_of(file[3], held))
    return steps


class Held:
    """What files hold, by their names."""

    def __init__(self, folder):
        self.folder = folder

    def __getitem__(self, name):
        return self.folder.read(name) or b""


def show(folder, name, wanted):
    found = folder.read(name)
    right = found is None if wanted == "not held" else found == bytes_of(wanted, Held(folder))
    if not right:
        raise Wrong(f"{name}: wanted {wanted}, came {found}")


def limits_of(steps):
    """Some sizes below the greatest file that is left."""
    most = max((len(held or b"") for _, left in steps for held in left.values()), default=0)
    return sorted({0, 1, most // 2, most - 1} & set(range(most)))


def play_limited(folder, lines, plain):
    """The first command that says 'write fault' under a limit leaves a front of what it left without; those before it did what they did."""
    for limit in limits_of(plain):
        folder.limit = limit
        try:
            steps = play(folder, lines)
        finally:
            folder.limit = None
        for (answer, left), (wanted, whole) in zip(steps, plain):
            if answer == wanted and left == whole:
                continue
            if (answer[0], answer[1].split("\n")[-1]) != (5, "write fault"):
                raise Wrong(f"limit {limit}: wanted {wanted} or a write fault, came {answer}")
            if any(not (whole.get(name) or b"").startswith(held or b"") for name, held in left.items()):
                raise Wrong(f"limit {limit}: wanted fronts of {whole}, came {left}")
            break


def play_row(folder, lines):
    plain = play(folder, lines)
    folder.pipes = True
    try:
        if play(folder, lines) != plain:
            raise Wrong("behind pipes other files are left")
    finally:
        folder.pipes = False
    play_limited(folder, lines, plain)


def main(words):
    program, *tables = words
    folder, counts = Folder(program), [0, 0]
    for table in tables:
        for name, lines in rows_of(table):
            if not is_for_disk(lines):
                continue
            try:
                play_row(folder, lines)
                print(f"ok {name} (on the disk)")
                counts[0] += 1
            except Wrong as wrong:
                print(f"wrong {name} (on the disk): {wrong}")
                counts[1] += 1
    folder.close()
    print(f"{counts[0]} passed, {counts[1]} failed")
    sys.exit(1 if counts[1] else 0)


if __name__ == "__main__":
    main(sys.argv[1:])
