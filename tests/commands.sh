#!/bin/sh
# Says where a command of launcher/words.txt has no line that it has to have. What isn't in an archive (crates/, bench/) is looked at in a
# checkout alone. The library for C takes one command at a time, so it has no `demo`. Usage: tests/commands.sh, from anywhere
set -u
cd "$(dirname "$0")/.." || exit 1
all=$(sed -n 's/^\([a-z][a-z]*\) |.*/\1/p' launcher/words.txt)

# Wants a line for each command but some: the file (or files), the line's pattern with WORD for the command, and those that need none.
want() {
    for file in ${1:-none}; do [ -f "$file" ] || return 0; done
    for word in $all; do
        case " $3 " in *" $word "*) continue ;; esac
        # shellcheck disable=SC2086
        grep -q -e "$(printf '%s' "$2" | sed "s/WORD/$word/g")" $1 || echo "${1%% *}: no line for $word"
    done
}

launcher='certify mend'
want README.md "\`WORD [][A-Z ]*\`.* |" ''
want "$(echo tests/*.rows)" 'celdrinn\( -[a-z-]*\)* WORD ' ''
want crates/q_app/src/words.rt '^    if verb == "WORD" {' "$launcher"
want "$(sed 's#^#crates/q_tests/data/#' crates/q_tests/args 2>/dev/null)" '^run WORD ' "$launcher"
want bench/refused.sh '^ *refuse WORD ' "$launcher demo"
want bench/fuzz/commands.py '^def WORD(' "$launcher"
want packaging/lib/commands.c '^    {"WORD", ' "$launcher demo"
want packaging/lib/celdrinn2.h '^ [*]   \(.* \)*WORD  *[A-Z-]' "$launcher demo"
want packaging/python/celdrinn.py '"WORD": \[' "$launcher demo"
want packaging/python/celdrinn.py '_run("WORD"' "$launcher demo"
want tests/lib/commands.c '"WORD"' "$launcher demo"

# a command of the program that no user meets
[ ! -f crates/q_app/src/words.rt ] || sed -n 's/^    if verb == "\([a-z]*\)" {/\1/p' crates/q_app/src/words.rt | while read -r word; do
    grep -q "^$word |" launcher/words.txt || echo "launcher/words.txt: no line for $word"
done
