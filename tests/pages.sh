#!/bin/sh
# Makes a table for tests/play.sh of pages: the commands of a page (lines that begin with "$ " in a block of code) are run in one
# folder, one after the other, and where a page shows what a command prints, this is compared.
# Usage: tests/pages.sh PAGE .. >TABLE
set -u
for page; do
    awk -v page="$page" '
        function close_command() {
            if (command == "") return
            commands[++count] = command
            shown[count] = text
            command = ""; text = ""
        }
        /^    / {
            line = substr($0, 5)
            if (continued) { command = command " " line; continued = sub(/\\$/, "", command) }
            else if (line ~ /^\$ /) { close_command(); command = substr(line, 3); continued = sub(/\\$/, "", command) }
            else if (command != "") text = text line "\\n"
            next
        }
        { close_command() }
        END {
            close_command()
            n = split("depqbf cadical minisat berkeley-abc parallel", tools, " ")
            print "row " page
            for (k = 1; k <= n; k++) {
                for (i = 1; i <= count; i++) if (commands[i] ~ ("(^|[ |])" tools[k] "( |$)")) { print "wants " tools[k]; break }
            }
            print "do ln -s \"$CELDRINN\" \"$examples\" \"$top/docs\" \"$top/completion\" ."
            for (i = 1; i <= count; i++) {
                print "do " commands[i]
                if (shown[i] != "") print "shows " shown[i]
                else print "ends"
            }
        }' "$page"
done
