#!/bin/sh
# Makes a manual page for each command, docs/man/celdrinn-COMMAND.1, of the command's help and the table launcher/words.txt, and of that table the
# synopsis of docs/celdrinn.1; with --check it says which of them are not what these say, and ends with 1. In either case it says which
# command or option docs/celdrinn.1 doesn't explain. Usage: packaging/man.sh [--check]
set -u
cd "$(dirname "$0")/.." || exit 1
work=$(mktemp -d) || exit 1
trap 'rm -rf "$work"' EXIT
day=$(sed -n 's/^\.Dd //p' docs/celdrinn.1)

# A help text as a page: its usage is the synopsis, its paragraphs are filled, and what is indented stays as it is.
page() {
    awk -v command="$1" -v text="$2" -v day="$day" '
        function plain(line) {
            gsub(/\\/, "\\e", line)
            gsub(/-/, "\\-", line)
            if (line ~ /^[.\047]/) line = "\\&" line
            return line
        }
        # each sentence begins a line, as mdoc wants it
        function put_sentences(line) {
            while (match(line, /[.] [A-Z\047]/)) { print plain(substr(line, 1, RSTART)); line = substr(line, RSTART + 2) }
            print plain(line)
        }
        function close_block() { if (is_literal) print ".Ed"; is_literal = 0 }
        BEGIN {
            print ".\\\" made by packaging/man.sh of help/" command ".txt"
            print ".Dd " day
            print ".Dt CELDRINN-" toupper(command) " 1"
            print ".Os"
            print ".Sh NAME"
            print ".Nm celdrinn-" command
            print ".Nd " text
            print ".Sh SYNOPSIS"
        }
        NR == 1 { sub(/^usage: /, ""); print ".Bd -literal"; print plain($0); is_usage = 1; next }
        is_usage && NF { sub(/^ +/, ""); print plain($0); next }
        is_usage { print ".Ed"; print ".Sh DESCRIPTION"; is_usage = 0; is_first = 1; next }
        NF == 0 { blank = 1; next }
        /^ / {
            if (!is_literal) { print ".Bd -literal"; is_literal = 1 }
            else if (blank) print ""
            blank = 0; is_first = 0
            print plain($0); next
        }
        {
            if (is_literal) close_block()
            if (blank && !is_first) print ".Pp"
            blank = 0; is_first = 0
            put_sentences($0)
        }
        END {
            close_block()
            print ".Sh SEE ALSO"
            print ".Xr celdrinn 1"
        }' "help/$1.txt"
}

# The synopsis: the operands and options of each command. What all commands have stands in the list of options alone.
synopsis() {
    awk '
        /^#/ || NF == 0 { next }
        { split($0, part, / *[|] */) }
        # `--part=I/N` is what mdoc writes as .Op Fl -part Ns = Ns Ar I Ns / Ns Ar N
        /^--/ {
            name = form = part[1]
            sub(/[=[].*/, "", name); sub(/^--[a-z]*/, "", form)
            is_within = sub(/^\[=/, "=", form); sub(/\]$/, "", form); sub(/^=/, "", form); gsub("/", " Ns / Ns Ar ", form)
            shown[name] = ".Op Fl " substr(name, 2) (form == "" ? "" : (is_within ? " Ns Op = Ns Ar " : " Ns = Ns Ar ") form)
            next
        }
        /^[A-Z]/ { next }
        { word[++count] = part[1]; operands[count] = part[2]; options[count] = part[3] }
        END {
            for (k = 1; k <= count; k++) {
                print ".Nm\n.Cm " word[k]
                n = split(operands[k], operand, / +/)
                wanted = left = ""
                for (i = 1; i <= n; i++) {
                    name = substr(operand[i], 2)
                    if (sub(/=.*/, "", name)) left = left (left == "" ? ".Op Ar " : " Op Ar ") name
                    else wanted = wanted (wanted == "" ? ".Ar " : " ") name
                }
                if (wanted != "") print wanted
                if (left != "") print left
                n = split(options[k], option, / +/)
                for (i = 1; i <= n; i++) if (option[i] != "stats") print shown["--" option[i]]
            }
            print ".Nm\n.Cm help\n.Op Ar command\n.Nm\n.Fl -help | Fl h | Fl -version"
        }' launcher/words.txt
}

mkdir "$work/man"
awk -v made="$(synopsis)" '/^[.]Sh DESCRIPTION/ { inside = 0 } !inside { print } /^[.]Sh SYNOPSIS/ { print made; inside = 1 }' docs/celdrinn.1 >"$work/celdrinn.1"
sed -n 's/^\([a-z][a-z]*\) | .* | \(.*\)$/\1 \2/p' launcher/words.txt | awk '!is_told[$1]++' >"$work/commands"
while read -r command text; do
    [ -f "help/$command.txt" ] || { echo "help/$command.txt is missing" >&2 && exit 1; }
    page "$command" "$text" >"$work/man/celdrinn-$command.1"
    grep -q "^\.It Cm $command\$" docs/celdrinn.1 || { echo "docs/celdrinn.1 doesn't explain the command $command" >&2 && exit 1; }
done <"$work/commands"
sed -n 's/^--\([a-z]*\).*/\1/p' launcher/words.txt >"$work/options"
while read -r option; do
    grep -q "^\.It Fl .*-$option\( \|\$\)" docs/celdrinn.1 || { echo "docs/celdrinn.1 doesn't explain the option --$option" >&2 && exit 1; }
done <"$work/options"

if [ "${1-}" = --check ]; then
    diff -r "$work/man" docs/man >"$work/diff" || { head -n 1 "$work/diff" >&2 && exit 1; }
    cmp -s "$work/celdrinn.1" docs/celdrinn.1 || { echo "the synopsis of docs/celdrinn.1 is not what launcher/words.txt says: packaging/man.sh makes it" >&2 && exit 1; }
    exit
fi
mkdir -p docs/man && rm -f docs/man/* && cp "$work"/man/* docs/man/
cmp -s "$work/celdrinn.1" docs/celdrinn.1 || cp "$work/celdrinn.1" docs/celdrinn.1
