#!/bin/sh
# Makes the completions of the three shells and the list of commands in help/celdrinn.txt of the table launcher/words.txt; with --check it says
# which of them are not what the table says, and ends with 1. Usage: packaging/words.sh [--check]
set -u
cd "$(dirname "$0")/.." || exit 1
work=$(mktemp -d) || exit 1
trap 'rm -rf "$work"' EXIT
mkdir "$work/completion" "$work/help"

# The table, as lines of fields that are separated by tabs: `command WORD KINDS OPERANDS OPTIONS TEXT` and `option WORD FORM TEXT`. KINDS has a
# letter for each operand: f for a file, n for a number. A command with several lines has them all, the longest first.
awk '
    /^#/ || NF == 0 { next }
    { split($0, part, / *\| */) }
    /^--/ {
        form = part[1]; sub(/^--[a-z]*/, "", form)
        word = part[1]; sub(/[=\[].*/, "", word)
        print "option\t" word "\t" (form == "" ? "." : form) "\t" part[3]; next
    }
    /^[A-Z]/ { next }
    {
        word = part[1]; kinds = ""; shown = ""; close_them = ""
        n = split(part[2], operand, / +/)
        for (i = 1; i <= n; i++) {
            if (operand[i] == "") continue
            kinds = kinds (operand[i] ~ /^#/ ? "n" : "f")
            name = operand[i]; sub(/^./, "", name)
            if (sub(/=.*/, "", name)) { shown = shown (shown == "" ? "" : " ") "[" name; close_them = close_them "]" }
            else shown = shown (shown == "" ? "" : " ") name
        }
        print "command\t" word "\t" kinds "\t" shown close_them "\t" (part[3] == "" ? "." : part[3]) "\t" part[4]
    }' launcher/words.txt >"$work/table"

# The options of a command with their dashes, those of all commands too; an option that takes a number ends with `=`.
options_of() {
    awk -F '\t' -v command="$1" '
        $1 == "option" { form[$2] = ($3 ~ /^=/) ? "=" : "" }
        $1 == "command" && $2 == command { k = split($5 == "." ? "" : $5, more, " "); for (i = 1; i <= k; i++) if (!has[more[i]]++) word[++n] = more[i] }
        END {
            for (i = 1; i <= n; i++) printf "--%s%s ", word[i], form["--" word[i]]
            printf "--quiet --verbose"
        }' "$work/table"
}
commands() { awk -F '\t' '$1 == "command" && !is_told[$2]++ { print $2 }' "$work/table"; }
field() { awk -F '\t' -v command="$1" -v k="$2" '$1 == "command" && $2 == command { print $k; exit }' "$work/table"; }
all=$(commands | tr '\n' ' ')
all=${all% }

{
    cat <<'END'
# Completion of celdrinn's words in bash. Load it by: source completion/celdrinn.bash
# It is made by packaging/words.sh.
_celdrinn() {
    local word=${COMP_WORDS[COMP_CWORD]} command=${COMP_WORDS[1]-} kinds='' options='' place=0 k
    COMPREPLY=()
    if [ "$COMP_CWORD" -eq 1 ]; then
END
    echo "        mapfile -t COMPREPLY < <(compgen -W \"$all help --help --version\" -- \"\$word\")"
    cat <<'END'
        return
    fi
    case $command in
        help)
END
    echo "            [ \"\$COMP_CWORD\" -eq 2 ] && mapfile -t COMPREPLY < <(compgen -W \"$all causes\" -- \"\$word\")"
    echo "            return"
    echo "            ;;"
    for command in $all; do
        echo "        $command) kinds=$(field "$command" 3) options=\"$(options_of "$command")\" ;;"
    done
    cat <<'END'
        *) return ;;
    esac
    if [[ $word == -* ]]; then
        compopt -o nospace
        mapfile -t COMPREPLY < <(compgen -W "$options" -- "$word")
        return
    fi
    # options may stand anywhere, so names are counted; bash takes the sign and the number behind an option for words of their own
    for ((k = 2; k < COMP_CWORD; k++)); do
        [[ ${COMP_WORDS[k]} == -* || ${COMP_WORDS[k]} == = || ${COMP_WORDS[k - 1]} == = ]] || place=$((place + 1))
    done
    if [[ $word != = && ${COMP_WORDS[COMP_CWORD - 1]} != = && ${kinds:place:1} == f ]]; then
        compopt -o filenames
        mapfile -t COMPREPLY < <(compgen -f -- "$word")
    fi
}
complete -F _celdrinn celdrinn ./celdrinn
END
} >"$work/completion/celdrinn.bash"

{
    cat <<'END'
#compdef celdrinn
# Completion of celdrinn's words in zsh. A folder of $fpath is the place for it.
# It is made by packaging/words.sh.
_celdrinn() {
    local -a commands options
    local kinds= place=0 k
    commands=(
END
    awk -F '\t' '$1 == "command" && !is_told[$2]++ { text = $6; gsub(/\047/, "", text); print "        \047" $2 ":" text "\047" }' "$work/table"
    cat <<'END'
        'help:prints the commands, or the options of one'
    )
    if (( CURRENT == 2 )); then
        _describe -t commands command commands
        compadd -- --help --version
        return
    fi
    case $words[2] in
        help)
            (( CURRENT == 3 )) || return 1
            _describe -t commands command commands
            compadd -- causes
            return
            ;;
END
    for command in $all; do
        echo "        $command) kinds=$(field "$command" 3) options=($(options_of "$command")) ;;"
    done
    cat <<'END'
    esac
    if [[ $PREFIX == -* ]]; then
        compadd -S '' -- $options
        return
    fi
    # options may stand anywhere, so names are counted
    for (( k = 3; k < CURRENT; k++ )); do
        [[ $words[k] == -* ]] || (( place++ ))
    done
    case ${kinds:$place:1} in
        n) _message number ;;
        f) _files ;;
        *) compadd -S '' -- $options ;;
    esac
}
_celdrinn "$@"
END
} >"$work/completion/_celdrinn"

{
    cat <<'END'
# Completion of celdrinn's words in fish. Load it by: source completion/celdrinn.fish
# It is made by packaging/words.sh.

# Whether the word at the cursor is a name of a file. Options may stand anywhere, so names are counted.
function __celdrinn_wants_file
    set -l given (commandline -opc)
    set -l kinds
    switch "$given[2]"
END
    for command in $all; do
        echo "        case $command"
        echo "            set kinds $(field "$command" 3 | sed 's/./& /g; s/ $//')"
    done
    cat <<'END'
        case '*'
            return 1
    end
    set -l names (string match -v -- '-*' $given[3..-1])
    set -l place (math (count $names) + 1)
    test $place -le (count $kinds); and test "$kinds[$place]" = f
end

# Whether options of this command may stand at the cursor.
function __celdrinn_wants_option
    set -l given (commandline -opc)
    contains -- "$given[2]" $argv
end

function __celdrinn_is_first
    test (count (commandline -opc)) -eq 1
end

function __celdrinn_is_help
    set -l given (commandline -opc)
    test (count $given) -eq 2 -a "$given[2]" = help
end

complete -c celdrinn -f
complete -c celdrinn -n __celdrinn_wants_file -F
for where in __celdrinn_is_first __celdrinn_is_help
END
    awk -F '\t' '$1 == "command" && !is_told[$2]++ { text = $6; gsub(/\047/, "", text); print "    complete -c celdrinn -n $where -a " $2 " -d \047" text "\047" }' "$work/table"
    cat <<'END'
end
complete -c celdrinn -n __celdrinn_is_help -a causes -d 'what the causes of a refusal mean'
complete -c celdrinn -n __celdrinn_is_first -a help -d 'prints the commands, or the options of one'
complete -c celdrinn -n __celdrinn_is_first -l help -d 'prints the commands'
complete -c celdrinn -n __celdrinn_is_first -l version -d 'prints the version and what it was proved with'
END
    awk -F '\t' '
        $1 == "command" && !is_told[$2]++ { all = all " " $2 }
        $1 == "command" { n = split($5 == "." ? "" : $5, word, " "); for (i = 1; i <= n; i++) if (!has[$2, word[i]]++) of["--" word[i]] = of["--" word[i]] " " $2 }
        $1 == "option" { option[++count] = $2; form[$2] = ($3 ~ /^=/) ? "=" : ""; text[$2] = $4 }
        END {
            of["--quiet"] = all; of["--verbose"] = all
            for (k = 1; k <= count; k++) {
                o = option[k]
                print "complete -c celdrinn -n \047__celdrinn_wants_option" of[o] "\047 -a " o form[o] " -d \047" text[o] "\047"
            }
        }' "$work/table"
} >"$work/completion/celdrinn.fish"

# The list: what a command does stands beside it, where there is room, else below it.
awk -F '\t' '
    FNR == NR { if ($1 == "command") { name[++n] = "  " $2 " " $4; text[n] = $6 } next }
    /^where .<command>/ { print; print ""; inside = 1; put(); next }
    inside && /^  help / { inside = 0 }
    inside { next }
    { print }
    function put(    k) {
        for (k = 1; k <= n; k++) {
            if (length(name[k]) < 24) printf "%-24s%s\n", name[k], text[k]
            else printf "%s\n%-24s%s\n", name[k], "", text[k]
        }
    }' "$work/table" help/celdrinn.txt >"$work/help/celdrinn.txt"

status=0
for file in completion/celdrinn.bash completion/_celdrinn completion/celdrinn.fish help/celdrinn.txt; do
    if [ "${1-}" = --check ]; then
        cmp -s "$work/$file" $file || { echo "$file is not what launcher/words.txt says: packaging/words.sh makes it" && status=1; }
    else
        cmp -s "$work/$file" $file || cp "$work/$file" $file
    fi
done
# each command has its page of help
for command in $all; do
    [ -f "help/$command.txt" ] || { echo "help/$command.txt is missing" && status=1; }
done
exit $status
