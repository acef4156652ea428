#!/usr/bin/env python3
"""A formula and circuits for `validate` that need a search over so many inputs.

Usage: bench/certificates.py USED ALL GATES IN CERT [SEED]
       bench/certificates.py copies N IN CERT

ALL universals, of which the first USED decide: one existential is their parity, another its negation, and a clause asks that one
of them holds, so that it stays open until all of these have values. The other gates are random ands of earlier literals and of the
first USED inputs, a fifth of them parts of exclusive ors; ten existentials, in no clause that could be false, are the last of them.
The circuits are Skolem functions: `validate` answers `valid` after 2 to the USED - 1 branches.

`copies`: N universals, and N existentials, each to be equal to one of them, which it is. Each clause stays open until its
universal has a value, so all inputs get one before anything is said.
"""
import random

from words import split


def write_copies(count, formula, cert):
    inputs = range(1, count + 1)
    with open(formula, "w") as f:
        f.write(f"p cnf {2 * count} {2 * count}\n")
        f.write("a " + " ".join(str(k) for k in inputs) + " 0\n")
        f.write("e " + " ".join(str(count + k) for k in inputs) + " 0\n")
        f.writelines(f"{k} -{count + k} 0\n-{k} {count + k} 0\n" for k in inputs)
    with open(cert, "w") as f:
        f.write(f"aag {count} {count} 0 {count} 0\n")
        for _ in range(2):
            f.writelines(f"{2 * k}\n" for k in inputs)
        f.writelines(f"i{k - 1} {k}\n" for k in inputs)
        f.writelines(f"o{k - 1} {count + k}\n" for k in inputs)


def main():
    words, _ = split(__doc__, 4, 6)
    if words[0] == "copies":
        write_copies(int(words[1]), words[2], words[3])
        return
    used, all_, gates = (int(x) for x in words[:3])
    rng = random.Random(words[5] if len(words) > 5 else "1")
    lines, top = [], all_

    def gate(a, b):
        nonlocal top
        top += 1
        lines.append((2 * top, a, b))
        return 2 * top

    def xor(a, b):
        return gate(gate(a, b) ^ 1, gate(a ^ 1, b ^ 1) ^ 1)

    parity = 2
    for k in range(2, used + 1):
        parity = xor(parity, 2 * k)
    pool = [2 * k for k in range(1, used + 1)]
    while len(lines) + 3 <= gates:
        a, b = rng.choice(pool[-5000:]) ^ rng.getrandbits(1), rng.choice(pool[-5000:]) ^ rng.getrandbits(1)
        pool.append(xor(a, b) if rng.random() < 0.08 else gate(a, b))
    while len(lines) < gates:
        pool.append(gate(pool[-1], pool[-2]))
    outs = [parity, parity ^ 1] + pool[-10:]
    first = all_ + 1
    with open(words[3], "w") as f:
        names = range(first, first + len(outs))
        f.write(f"p cnf {all_ + len(outs)} {1 + len(outs) - 2}\n")
        f.write("a " + " ".join(str(k) for k in range(1, all_ + 1)) + " 0\n")
        f.write("e " + " ".join(str(k) for k in names) + " 0\n")
        f.write(f"{first} {first + 1} 0\n")
        for k in list(names)[2:]:
            f.write(f"{first} {first + 1} {k} 0\n")
    with open(words[4], "w") as f:
        f.write(f"aag {top} {all_} 0 {len(outs)} {len(lines)}\n")
        f.writelines(f"{2 * k}\n" for k in range(1, all_ + 1))
        f.writelines(f"{o}\n" for o in outs)
        f.writelines(f"{g} {max(a, b)} {min(a, b)}\n" for g, a, b in lines)
        f.writelines(f"i{k} {k + 1}\n" for k in range(all_))
        f.writelines(f"o{k} {first + k}\n" for k in range(len(outs)))


if __name__ == "__main__":
    main()
