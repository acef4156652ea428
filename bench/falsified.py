#!/usr/bin/env python3
"""Whether values of the universals falsify a clause, with each existential at its circuit's value.

Usage: bench/falsified.py IN CERT LITERAL ..

It prints the first false clause, or ends with 1 where there is none.

It shares nothing with the validator: gates are evaluated one after the other, at these values alone.
"""
import sys

from words import split


def read_certificate(path):
    words = open(path).read().split("\n")
    _, top, inputs, _, outputs, ands = words[0].split()
    inputs, outputs, ands = int(inputs), int(outputs), int(ands)
    ins = [int(x) for x in words[1:1 + inputs]]
    outs = [int(x) for x in words[1 + inputs:1 + inputs + outputs]]
    gates = [tuple(int(x) for x in l.split()) for l in words[1 + inputs + outputs:1 + inputs + outputs + ands]]
    names = {}
    for l in words[1 + inputs + outputs + ands:]:
        if l[:1] in ("i", "o"):
            at, name = l.split()
            names[at] = int(name)
        else:
            break
    return ins, outs, gates, names


def main():
    words, _ = split(__doc__, 2)
    universals = {abs(int(x)): int(x) > 0 for x in words[2:]}
    ins, outs, gates, names = read_certificate(words[1])
    value = {0: False}
    for k, lit in enumerate(ins):
        value[lit // 2] = universals[names[f"i{k}"]]
    for left, a, b in sorted(gates):
        value[left // 2] = (value[a // 2] ^ bool(a & 1)) and (value[b // 2] ^ bool(b & 1))
    known = dict(universals)
    for k, lit in enumerate(outs):
        known[names[f"o{k}"]] = value[lit // 2] ^ bool(lit & 1)
    clause = []
    for line in open(words[0]):
        literals = line.split()
        if not literals or literals[0] in ("c", "p", "e", "a"):
            continue
        for lit in map(int, literals):
            if lit:
                clause.append(lit)
                continue
            if not any(known[abs(l)] == (l > 0) for l in clause):
                print("false:", *clause)
                return 0
            clause = []
    return 1


if __name__ == "__main__":
    sys.exit(main())
