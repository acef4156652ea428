"""What the Python scripts of bench/ share: their words. A script's docstring is its help; words are names and options, --NAME=VALUE or --NAME, in
any order. CELDRINN names the program, by default the released one."""
import os
import sys

HOME = os.path.dirname(os.path.dirname(os.path.realpath(__file__)))
CELDRINN = os.path.realpath(os.environ.get("CELDRINN", f"{HOME}/dist/celdrinn-x86_64-linux"))


def split(doc, least=0, most=None, **options):
    """The names, and the options by their defaults; a default False is an option without a value. Ends with the help where the words are none."""
    given = sys.argv[1:]
    if "--help" in given:
        print(doc.strip())
        sys.exit(0)
    names, values = [], dict(options)
    for word in given:
        name, _, value = word[2:].partition("=")
        if not word.startswith("--"):
            names.append(word)
        elif name in options:
            values[name] = True if options[name] is False else type(options[name])(value)
        else:
            sys.exit(f"no such option: {word}\n{doc.strip()}")
    if len(names) < least or (most is not None and len(names) > most):
        sys.exit(doc.strip())
    return names, values
