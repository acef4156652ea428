#!/usr/bin/env python3
"""Plants the bugs of bench/planted.txt as must-fail edits, or looks whether bugs and edits fit the sources.

Usage: bench/planted.py FOLDER [CRATE ..]      into a copy of the repository, as CRATE/must-fail/zz_NAME.edit
       bench/planted.py --once                 names each bug and each edit of which an old text does not stand exactly once
       bench/planted.py --table [--check]      writes the table of docs/TESTING.md, or says whether it is what the bugs say

In a copy `rt must-fail CRATE` says of each whether the prover refuses it. One that it does not refuse shows a contract that is too weak, or a bug that changes nothing.
"""
import collections
import glob
import os
import sys

from words import split

HOME = os.path.dirname(os.path.realpath(__file__))
CRATES = os.path.join(os.path.dirname(HOME), "crates")


def parts():
    """Crate, name, what is said and text of each bug."""
    with open(f"{HOME}/planted.txt", encoding="utf-8") as lines:
        for part in lines.read().split("\n\n"):
            head, said, *text = part.strip("\n").split("\n")
            _, crate, name = head.split(" ")
            yield crate, name, said.removeprefix("in: "), "\n".join(text) + "\n"


def bugs():
    """Crate, name and text of each bug."""
    for crate, name, _, text in parts():
        yield crate, name, text


def edits():
    """Crate, name and text of each edit."""
    for path in sorted(glob.glob(f"{CRATES}/*/must-fail/*.edit")):
        crate, _, name = path.split("/")[-3:]
        with open(path, encoding="utf-8") as text:
            yield crate, name, text.read()


def changes(text):
    """File, old and new text of each change that a bug or an edit makes."""
    file = old = ""
    for line in text.splitlines():
        word, _, rest = line.partition(":")
        rest = rest.removeprefix(" ")
        if word == "file":
            file = rest
        elif word == "old":
            old = rest
        elif word == "new":
            yield file, old, rest


def fits(crate, text):
    """Whether each old text stands exactly once, once the changes before it are made."""
    sources = {}
    for file, old, new in changes(text):
        if file not in sources:
            with open(f"{CRATES}/{crate}/{file}", encoding="utf-8") as source:
                sources[file] = source.read()
        if sources[file].count(old) != 1:
            return False
        sources[file] = sources[file].replace(old, new)
    return True


def look():
    """Says what does not fit, and how many do."""
    strange = count = 0
    for crate, name, text in [*bugs(), *edits()]:
        count += 1
        if not fits(crate, text):
            strange += 1
            print(f"{crate} {name}")
    print(f"{count - strange} of {count} fit")
    return 1 if strange else 0


VERDICTS = {
    "refused": "tried, and refused by a proof of the function",
    "proves": "tried, and proves",
    "earlier": "refused on an earlier form of the sources, not tried anew",
    "edit": "an edit before, refused as such",
    "not tried": "not tried",
}


def verdict(said):
    """What became of a bug."""
    end = said.rsplit("; ", 1)[-1]
    for word, verdict_of in (("refused on an earlier", "earlier"), ("refused when tried as an edit", "edit"), ("refused", "refused"), ("not tried", "not tried")):
        if end.startswith(word):
            return verdict_of
    return "proves"


def has_proof_file(crate, said, text):
    """Whether a function that a bug changes has a proof file: then a refusal may show only that this no longer fits."""
    function = said.split(": ")[0].split("::")[-1]
    stems = {file.removeprefix("src/").removesuffix(".rt") for file, _, _ in changes(text)}
    return any(os.path.isdir(place) for stem in stems for place in glob.glob(f"{CRATES}/{crate}/proofs/{stem}/**/{function}", recursive=True))


def table():
    """The table of docs/TESTING.md: how many bugs there are, by what became of them."""
    counts = collections.Counter((verdict(said), has_proof_file(crate, said, text)) for crate, _, said, text in parts())
    rows = [(words, counts[key, False], counts[key, True]) for key, words in VERDICTS.items()]
    rows.append(("all", sum(row[1] for row in rows), sum(row[2] for row in rows)))
    lines = ["| Bugs | in functions without a proof file | in others | all |", "|---|---|---|---|"]
    return "\n".join(lines + [f"| {words} | {free} | {bound} | {free + bound} |" for words, free, bound in rows]) + "\n"


def put_table(check):
    """Writes the table, or says whether it is there."""
    page = f"{os.path.dirname(HOME)}/docs/TESTING.md"
    with open(page, encoding="utf-8") as lines:
        text = lines.read()
    before, rest = text.split("| Bugs |", 1)
    behind = rest.split("\n\n", 1)[1]
    wanted = before + table() + "\n" + behind
    if check:
        print("the table is what the bugs say" if wanted == text else "docs/TESTING.md has another table: bench/planted.py --table writes it")
        return 0 if wanted == text else 1
    with open(page, "w", encoding="utf-8") as out:
        out.write(wanted)
    return 0


def plant(folder, crates):
    """Puts the bugs of these crates, or of all, into a copy."""
    for crate, name, text in bugs():
        if not crates or crate in crates:
            os.makedirs(f"{folder}/crates/{crate}/must-fail", exist_ok=True)
            with open(f"{folder}/crates/{crate}/must-fail/zz_{name}.edit", "w", encoding="utf-8") as out:
                out.write(text)


def main():
    names, options = split(__doc__, once=False, table=False, check=False)
    if options["once"]:
        sys.exit(look())
    if options["table"]:
        sys.exit(put_table(options["check"]))
    if not names:
        sys.exit(__doc__)
    plant(names[0], names[1:])


if __name__ == "__main__":
    main()
