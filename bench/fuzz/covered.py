#!/usr/bin/env python3
"""Which functions of the released library the cases of million.sh reach, and how often.

Usage: bench/fuzz/covered.py [--cases=N] [--seed=N] [--verb=WORD] [--kept=FILE] [--show=NAME]

Plays N cases (3,000 if not said) of SEED (1) below callgrind, in one job, which takes some fifty times as long; with WORD those of one
command. Wants valgrind, objdump, make and a compiler for C++17. Written is a table: each crate's functions in the linked archive, how many
of them were reached, and the share of their instructions that were executed; then how often the rarer paths ran, then each function that
no case reached, and those of which less than half was executed. A function that stands in others alone, since the compiler put it there,
has no name of its own.

NAME shows the instructions of the functions whose name holds it, each with its count. What callgrind wrote is kept in FILE; where that is
there already, of the same program, no case is played. ARCHIVE and OUT are as for million.sh.
"""
import collections
import glob
import os
import re
import shutil
import subprocess
import sys
import tempfile

HERE = os.path.dirname(os.path.realpath(__file__))
sys.path.insert(0, os.path.dirname(HERE))
from words import split  # noqa: E402

OUT = os.path.abspath(os.environ.get("OUT", f"{HERE}/million/build"))
ARCHIVE = os.path.abspath(os.environ.get("ARCHIVE", f"{HERE}/../../dist/libceldrinn-x86_64-linux.a"))
OURS = re.compile(r"(q_\w+)::|(celdrinn_)")
# Rarer paths: what they are called, the function in which they stand, and, where it does more than that, what its instructions have
# behind which the path begins: a comparison, or a call (each one by itself).
PATHS = [
    ("checker: a glance where a row has more than 64 entries", "q_prop::propagation::query", r"cmp +\$0x41,"),
    ("checker: a row on a page that is made", "q_prop::rows::new_room", ""),
    ("checker: room for the binding of a variable", "q_judge::binding_row::BindingRow::make_room", ""),
    ("rows by number: written to behind what is filled, or on a page", "q_sparse::sparse::Sparse::set_first", ""),
    ("rings, where few numbers are written: an item put in front", "q_arena::rings::put_front_far", ""),
    ("rings, where few numbers are written: an item taken out", "q_arena::rings::take_out_far", ""),
    ("circuits: a table's entry written", "q_certificate::table::put", ""),
    ("reduce: cost of walks noted for a forest", "q_reduce::forests::Forests::note", ""),
    ("reduce: a forest grown by a clause", "q_reduce::forest::Forest::grow", ""),
    ("reduce: a connection asked of forests", "q_reduce::forests::connect", ""),
    ("blocked: steps of covered literals, replayed and searched", "q_blocked::cover::fits_cover", r"call.*cover_at"),
    ("blocked: a long clause looked at by two literals", "q_blocked::nothing_hidden::long_gives_none", ""),
    ("parts: one of a log", "q_command::checking::check_part::", ""),
    ("parts: one of a proof", "q_run_disprove::disproving::disprove_shared", ""),
    ("parts: hints of one", "q_run_annotate::files::annotate_part", ""),
    ("stops: a last search, before which no alarm rings here", "q_sched::searches::Searches::look_any", ""),
]


def functions():
    """The instructions of each function of ours, by name: addresses and what is written of each."""
    found, name = {}, ""
    text = subprocess.run(["objdump", "-d", "--no-show-raw-insn", f"{OUT}/million"], stdout=subprocess.PIPE, text=True, check=True).stdout
    for line in text.splitlines():
        head = re.fullmatch(r"[0-9a-f]+ <(.*)>:", line)
        at = re.match(r"\s*([0-9a-f]+):\t(.*)", line)
        if head:
            name = head[1] if OURS.match(head[1]) else ""
        elif at and name and not at[2].startswith(("nop", "data16", "xchg   %ax,%ax", "int3")):
            found.setdefault(name, []).append((int(at[1], 16), at[2]))
    return found


def counts(path):
    """How often each instruction of the program was executed, by address."""
    found, at, is_ours, is_call = collections.Counter(), 0, False, False
    with open(path, encoding="utf-8", errors="replace") as lines:
        names = {}
        for line in lines:
            if line.startswith("ob="):
                number, _, name = line[3:].strip().partition(" ")
                names[number] = name or names.get(number, "")
                is_ours = names[number].endswith("/million")
            elif line.startswith("cob="):
                number, _, name = line[4:].strip().partition(" ")
                names[number] = name or names.get(number, "")
            elif line.startswith("calls="):
                is_call = True
            elif line[0] in "0+-*":
                place, _, cost = line.split(" ")[:3] if line.count(" ") > 1 else (*line.split(" "), "0")
                at = at if place[0] == "*" else at + int(place) if place[0] in "+-" else int(place, 16)
                if is_ours and not is_call:
                    found[at] += int(cost)
                is_call = False
    return found


def play(options, kept):
    """Plays the cases below callgrind; whether all were as they should be."""
    words = [f"--cases={options['cases']}", f"--seed={options['seed']}", "--seconds=1000000"]
    if options["verb"]:
        words.append(f"--verb={options['verb']}")
    with tempfile.TemporaryDirectory(prefix="covered-") as room:
        command = ["valgrind", "-q", "--tool=callgrind", "--dump-instr=yes", f"--callgrind-out-file={room}/%p", f"{OUT}/million", *words]
        ended = subprocess.run(command, stdout=subprocess.PIPE, stderr=subprocess.DEVNULL, text=True, errors="replace", check=False)
        print([line for line in ended.stdout.splitlines() if " cases in " in line][-1])
        # the job is the child of the one that watches
        shutil.move(max(glob.glob(f"{room}/[0-9]*"), key=os.path.getsize), kept)
    return ended.returncode == 0


def crate_of(name):
    """The crate of a function; the calls for C stand in q_c_library."""
    return OURS.match(name)[1] or "q_c_library"


def tell(found, counted):
    """The tables."""
    called = {name: counted[rows[0][0]] for name, rows in found.items()}
    run = {name: sum(1 for at, _ in rows if counted[at]) for name, rows in found.items()}
    share = {name: 100 * run[name] // len(rows) for name, rows in found.items()}
    crates = collections.defaultdict(list)
    for name in found:
        crates[crate_of(name)].append(name)
    print(f"{'crate':16} functions  reached  instructions  executed")
    for crate, names in [*sorted(crates.items()), ("all", list(found))]:
        size = sum(len(found[name]) for name in names)
        hit = sum(run[name] for name in names)
        print(f"{crate:16} {len(names):9}  {sum(1 for name in names if run[name]):7}  {size:12}  {100 * hit / size:6.1f} %")
    print("\nhow often rarer paths ran")
    for said, function, behind in PATHS:
        for name in sorted(name for name in found if name.startswith(function)):
            places = [at for at, (_, text) in enumerate(found[name]) if re.match(behind, text)] if behind else [0]
            # behind a comparison stands the jump, and then the path
            skipped = 2 if behind.startswith("cmp") else 0
            times = ", ".join(str(counted[found[name][at + skipped][0]]) for at in places)
            print(f"{times:>16}  {said} ({name})")
    print("\nnot reached")
    for name in sorted(name for name in found if not run[name]):
        print(f"                  {name}")
    print("\nless than half executed")
    for name in sorted((name for name in found if 0 < share[name] < 50), key=lambda name: share[name]):
        print(f"{called[name]:16}  {share[name]:3} %  {name}")


def show(found, counted, part):
    """The instructions of some functions, each behind how often it was executed."""
    for name in sorted(name for name in found if part in name):
        print(f"\n{name}")
        for at, text in found[name]:
            print(f"{counted[at]:10} {at:8x}  {text}")


def main():
    names, options = split(__doc__, cases=3000, seed=1, verb="", kept="", show="")
    if names:
        sys.exit(__doc__)
    subprocess.run(["make", "-s", "-C", f"{HERE}/million", f"OUT={OUT}", f"ARCHIVE={ARCHIVE}"], check=True)
    is_right = True
    with tempfile.NamedTemporaryFile(prefix="covered-") as room:
        kept = options["kept"] or room.name
        if not options["kept"] or not os.path.exists(kept) or os.path.getmtime(kept) < os.path.getmtime(f"{OUT}/million"):
            is_right = play(options, kept)
        found, counted = functions(), counts(kept)
    tell(found, counted)
    if options["show"]:
        show(found, counted, options["show"])
    sys.exit(0 if is_right else 1)


if __name__ == "__main__":
    main()
