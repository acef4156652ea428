#!/usr/bin/env python3
"""Tries the launcher's text of binary AIGER (launcher/aiger.awk) beside a reader of its own, on random circuits of which half have changed bytes.

Usage: bench/aiger.py [SEED [COUNT]]

Both have to write the same text, or to refuse the same byte; in both ways in which awk gets the bytes, where it takes a byte 0. Ends with 1 at the first
difference.
"""
import os
import random
import re
import subprocess
import sys

from words import HOME, split

AWK = f"{HOME}/launcher/aiger.awk"
MOST = 268435456


class Refused(Exception):
    """At this byte, counted from 1."""


def group(value):
    return bytes([value]) if value < 128 else bytes([value & 127 | 128]) + group(value >> 7)


def made(rng):
    """Random circuits in binary AIGER."""
    inputs, gates, outputs = rng.randint(0, 6), rng.randint(0, 12), rng.randint(0, 4)
    if rng.random() < 0.1:
        inputs = rng.randint(100, 400)
    most = inputs + gates
    text = f"aig {most} {inputs} 0 {outputs} {gates}\n".encode()
    for _ in range(outputs):
        text += f"{rng.randint(0, 2 * most + 1)}\n".encode()
    for gate in range(2 * inputs + 2, 2 * most + 2, 2):
        one = rng.randrange(gate)
        text += group(gate - one) + group(one - rng.randint(0, one))
    names = [f"i{k} {k + 1}\n" for k in range(inputs)] + [f"o{k} {inputs + k + 1}\n" for k in range(outputs)]
    text += "".join(names).encode()
    return text + rng.choice((b"", b"c\n", b"c\nby hand\n", b"cn\0\0\0\x02c\0\nThis\n"))


def spoiled(rng, text):
    """The same with one to three bytes changed, taken away or put in."""
    for _ in range(rng.randint(1, 3)):
        at = rng.randrange(len(text) + 1)
        new = rng.choice((b"", bytes([rng.randrange(256)]), b"\xff" * rng.randint(1, 9), b"\n", b"0", b"1"))
        text = text[:at] + new + text[at + rng.randint(0, 1) :]
    return text


def line_at(text, at):
    """The line from a place on, and where the next one begins."""
    end = text.find(b"\n", at)
    if end < 0:
        raise Refused(len(text) + 1)
    return text[at:end], end + 1


def number_at(text, at):
    """A number in groups of seven bits, and what stands behind it."""
    value = 0
    for k in range(9):
        if at + k >= len(text):
            raise Refused(len(text) + 1)
        byte = text[at + k]
        if byte < 128:
            return value + (byte << 7 * k), at + k + 1
        if k == 7:
            raise Refused(at + k + 1)
        value += (byte & 127) << 7 * k
    raise AssertionError


def shown(line):
    """A line of symbols, in which bytes that are no text are another sign."""
    return "".join(chr(b) if 31 < b < 127 else "\x01" for b in line)


def read(text):
    """The text form."""
    head, at = line_at(text, 0)
    match = re.fullmatch(rb"aig (\d+) (\d+) (\d+) (\d+) (\d+)", head)
    if not match:
        raise Refused(at)
    rows = ["a" + "ag" + head.decode()[3:]]
    most, inputs, latches, outputs, gates = map(int, match.groups())
    if latches or most > MOST:
        return "\n".join(rows) + "\n"
    if most != inputs + gates or 5 * inputs > len(text):
        raise Refused(at)
    rows += [str(2 * k + 2) for k in range(inputs)]
    for _ in range(outputs):
        line, at = line_at(text, at)
        if not re.fullmatch(rb"\d+", line):
            raise Refused(at)
        rows.append(line.decode())
    for gate in range(2 * inputs + 2, 2 * most + 2, 2):
        first, at = number_at(text, at)
        if not 0 < first <= gate:
            raise Refused(at)
        second, at = number_at(text, at)
        if second > gate - first:
            raise Refused(at)
        rows.append(f"{gate} {gate - first} {gate - first - second}")
    lines = text[at:].split(b"\n")
    for line in lines[:-1] + ([lines[-1]] if lines[-1] else []):
        if line[:1] == b"c":
            rows.append("c")
            break
        rows.append(shown(line))
    return "\n".join(rows) + "\n"


def by_awk(text, ways):
    """What awk makes of it: its text, or the byte that it refuses."""
    words = ["awk", "-v", f"size={len(text)}", *ways, "-f", AWK]
    given = text + b"\n"
    if ways:
        given = subprocess.run(["od", "-An", "-v", "-tu1"], input=text, stdout=subprocess.PIPE, check=True).stdout
    run = subprocess.run(words, input=given, capture_output=True, env={**os.environ, "LC_ALL": "C"}, check=False)
    if run.returncode == 0:
        return run.stdout.decode("latin-1")
    return int(re.match(rb"byte (\d+): ", run.stderr).group(1))


def main():
    words, _ = split(__doc__, 0, 2)
    seed, count = (int(w) for w in words + ["1", "1000"][len(words) :])
    accepted = refused = 0
    length = subprocess.run(["awk", "{ print length($0) }"], input=b"a\0b\n", stdout=subprocess.PIPE, check=True).stdout
    all_ways = [["-v", "numbers=1"]] + ([[]] if length == b"3\n" else [])
    for number in range(count):
        rng = random.Random(f"{seed} {number}")
        text = made(rng)
        if rng.random() < 0.5:
            text = spoiled(rng, text)
        try:
            wanted = read(text)
            accepted += 1
        except Refused as at:
            wanted = at.args[0]
            refused += 1
        for ways in all_ways:
            came = by_awk(text, ways)
            if came != wanted:
                print(f"case {number} of seed {seed} {ways}: wanted {wanted!r}, came {came!r} of {text!r}")
                return 1
    print(f"{accepted} written, {refused} refused, none in another way")
    return 0


if __name__ == "__main__":
    sys.exit(main())
