#!/usr/bin/env bash
# Times `refute` on two families of logs, and reports steps, bytes, processor seconds and peak memory. Time and memory should be
# linear in the log and the circuits. With --write it only writes the files in, out, log and herbrand.
#
# Usage: bench/refuting.sh [reduced | replaced [GATES ..]] | bench/refuting.sh --write FAMILY GATES FOLDER
#
# reduced: a false formula of many gates is taken down to the empty clause. Of each gate g, the conjunction of x and y, the opponent's
# u tells the value before g is chosen: where u differs from g a chain of clauses is cut, and so u is to be equal to g. Elimination
# of the chain's variable and of g, universal reduction of u, and elimination of x and y leave the next link of the chain. Each
# universal's circuit is made of three plain drops.
#
# replaced: a fresh y is made equal to each x by two additions, and a circuit of so many gates reads all y. On the way back each
# y is replaced three times.
set -eu
# shellcheck source=common.sh
. "$(dirname "$0")/common.sh"
option_write=
take_words write "$@"
set -- "${names[@]}"

files() {
    python3 - "$@" <<'PYTHON'
import os, sys

family, gates, folder = sys.argv[1], int(sys.argv[2]), sys.argv[3]


def line(*words):
    return " ".join(map(str, (*words, 0))) + "\n"


def write(name, *texts):
    with open(os.path.join(folder, name), "w") as out:
        out.writelines(texts)


def reduced():
    first = 5 * gates + 1

    def of(i):
        """The link before gate i, the one behind it, and x, y, u and g."""
        return first if i == 1 else 5 * i - 9, 5 * i - 4, 5 * i - 3, 5 * i - 2, 5 * i - 1, 5 * i

    prefix, clauses, log, inner = [], [line(first)], [], []
    for i in range(gates, 0, -1):
        before, link, x, y, u, g = of(i)
        prefix += line("e", *inner, link, x, y), line("a", u)
        inner = [g]
    prefix.append(line("e", *inner, first))
    for i in range(1, gates + 1):
        before, link, x, y, u, g = of(i)
        clauses += line(-g, x), line(-g, y), line(g, -x, -y)
        clauses += line(-before, link, u, g), line(-before, link, -u, -g)
        log += line(link, u, g), line(link, -u, -g), line("d", -before, link, u, g), line("d", -before, link, -u, -g)
        log += line("d", before), line("r", before)
        log += line(link, u, x), line(link, u, y), line(link, -u, -x, -y)
        log += line("d", -g, x), line("d", -g, y), line("d", -g, link, -u)
        log += line("d", g, link, u), line("d", g, -x, -y), line("r", g)
        log += line("u", u, link, x), line("u", u, link, y), line("u", -u, link, -x, -y), line("r", u)
        log += line(link, -y), line("d", x, link), line("d", -x, link, -y), line("r", x)
        log += line(link), line("d", y, link), line("d", -y, link), line("r", y)
    clauses.append(line(-link))
    log += line(), line("d", link), line("d", -link), line("r", link)
    write("in", f"p cnf {first} {len(clauses)}\n", *prefix, *clauses)
    write("out", "p cnf 0 1\n0\n")
    write("log", *log)
    write("herbrand", "aag 0 0 0 0 0\n")


def replaced():
    u = gates + 1
    copies = [(x, u + x) for x in range(1, gates + 1)]
    clauses = [line(1, u), line(-1, -u)]
    ties = [line(sign * y, -sign * x) for x, y in copies for sign in (1, -1)]
    write("in", f"p cnf {u} 2\n", line("e", *range(1, u)), line("a", u), *clauses)
    write("out", f"p cnf {2 * gates + 1} {len(ties) + 2}\n", line("e", *(v for pair in copies for v in pair)), line("a", u), *clauses, *ties)
    write("log", *(line("e", y, x) for x, y in copies), *ties)
    inputs = [f"{2 * place}\n" for place in range(1, gates + 1)]
    chain = [(2 * (gates + k), 2 * (gates + k - 1) if k > 1 else 2, 2 * (k + 1)) for k in range(1, gates)]
    write("herbrand", f"aag {2 * gates - 1} {gates} 0 1 {gates - 1}\n", *inputs, f"{chain[-1][0]}\n",
          *(f"{gate} {left} {right}\n" for gate, left, right in chain),
          *(f"i{place} {y}\n" for place, (x, y) in enumerate(copies)), f"o0 {u}\n")


{"reduced": reduced, "replaced": replaced}[family]()
PYTHON
}

measure() {
    local family=$1 gates steps bytes
    shift
    for gates; do
        files "$family" "$gates" "$work"
        steps=$(wc -l <"$work/log")
        bytes=$(wc -c <"$work/log")
        /usr/bin/time -o "$work/time" -f "%U s and %M KiB" \
            "$program" refute "$work/in" "$work/out" "$work/log" "$work/herbrand" "$work/cert" >"$work/said"
        echo "$family, $gates gates, $steps steps, $bytes bytes: $(cat "$work/said"), $(cat "$work/time")"
    done
}

if [ -n "$option_write" ]; then
    files "$1" "$2" "$3"
elif [ $# -gt 1 ]; then
    measure "$@"
else
    [ "${1-reduced}" != reduced ] || measure reduced 25000 50000 100000
    [ "${1-replaced}" != replaced ] || measure replaced 1000 10000 100000
fi
