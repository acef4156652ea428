#!/bin/sh
# Plays rows about the program as a user meets it: words, files, lines, statuses, what is said on standard error.
# Says `ok NAME`, `skipped NAME: what is missing` or `wrong NAME: why` for each row, and ends with 1 where one is wrong.
# Usage: tests/play.sh TABLE ..; CELDRINN names the program, where it isn't this repository's launcher.
#
# A row begins with `row NAME` and is played in a folder of its own, in which `celdrinn` is the launcher. Then each line is one of these:
#   file NAME TEXT               makes a file; `\n` is a line end, and nothing behind the name is no byte
#   wants TOOL, user             the row is skipped without this tool, or for root
#   do COMMAND                   runs it by `sh -c`; the lines behind it look at what it answered. $examples and $top are folders.
#                                Where it says `skipped ..`, the row is skipped
#   status N, ends               its exit status; that this is 0, 10 or 20
#   line TEXT, shows TEXT        its whole standard output, as it stands or with `\n` for line ends
#   silent, says TEXT            that there is none; that it has this text
#   error TEXT, quiet            its standard error has this text, or nothing
#   holds NAME TEXT              the file has these bytes
set -u
top=$(cd "$(dirname "$0")/.." && pwd)
work=$(mktemp -d) || exit 1
trap 'rm -rf "$work"' EXIT
trap 'exit 130' INT
trap 'exit 143' TERM
mkdir "$work/bin"
ln -s "${CELDRINN:-$top/celdrinn}" "$work/bin/celdrinn"
PATH=$work/bin:$PATH
CELDRINN_PROGRESS=0
# what the launcher notes of a checkout, and what fish and parallel keep, goes with the rest
XDG_CACHE_HOME=$work/cache XDG_CONFIG_HOME=$work/config XDG_DATA_HOME=$work/share PARALLEL_HOME=$work/parallel
mkdir "$PARALLEL_HOME"
CELDRINN=$work/bin/celdrinn
examples=${EXAMPLES:-$top/examples}
export PATH CELDRINN CELDRINN_PROGRESS XDG_CACHE_HOME XDG_CONFIG_HOME XDG_DATA_HOME PARALLEL_HOME examples top
passed=0 failed=0 skipped=0

# Closes a row: `name` is it, `why` says what is wrong, `missing` what is missing.
close() {
    [ -n "$name" ] || return 0
    if [ -n "$missing" ]; then
        echo "skipped $name: $missing"
        skipped=$((skipped + 1))
    elif [ -n "$why" ]; then
        echo "wrong $name: $why"
        failed=$((failed + 1))
    else
        echo "ok $name"
        passed=$((passed + 1))
    fi
}

open() {
    name=$1 why='' missing=''
    rm -rf "$work/row"
    mkdir "$work/row"
    cd "$work/row" || exit 1
}

wrong() { [ -n "$why" ] || why=$1; }

# Runs a command; what it answers is what the lines behind it look at.
run() {
    command=$1
    sh -c "$1" <"$work/empty" >"$work/stdout" 2>"$work/stderr"
    status=$?
    text=$(grep -h '^skipped' "$work/stdout" "$work/stderr" | head -n 1)
    [ -z "$text" ] || missing=${text#skipped: }
}

look() {
    case $1 in
        file)
            case $2 in
                *' '*) printf '%b' "${2#* }" >"${2%% *}" ;;
                *) : >"$2" ;;
            esac
            ;;
        wants) command -v "$(eval "echo $2")" >/dev/null || missing="$2 is not here" ;;
        user) [ "$(id -u)" -ne 0 ] || missing="root may read and write everything" ;;
        do) run "$2" ;;
        status) [ "$status" = "$2" ] || wrong "status $status, not $2" ;;
        line) [ "$(cat "$work/stdout")" = "$2" ] || wrong "said '$(head -n 1 "$work/stdout")', not '$2'" ;;
        shows) [ "$(cat "$work/stdout")" = "$(printf '%b' "$2")" ] || wrong "'$command' says '$(head -n 1 "$work/stdout")'" ;;
        ends) case $status in 0 | 10 | 20) ;; *) wrong "'$command' ends with $status" ;; esac ;;
        says) grep -q -F -e "$2" "$work/stdout" || wrong "no line with '$2', the last is '$(tail -n 1 "$work/stdout")'" ;;
        error) grep -q -F -e "$2" "$work/stderr" || wrong "standard error lacks '$2'" ;;
        silent) [ ! -s "$work/stdout" ] || wrong "said '$(head -n 1 "$work/stdout")'" ;;
        quiet) [ ! -s "$work/stderr" ] || wrong "standard error: $(head -n 1 "$work/stderr")" ;;
        holds) [ "$(cat "${2%% *}")" = "$(printf '%b' "${2#* }")" ] || wrong "other bytes in ${2%% *}" ;;
        *) wrong "no such line: $1" ;;
    esac
}

: >"$work/empty"
name='' why='' missing='' status=''
for table; do
    case $table in /*) ;; *) table=$PWD/$table ;; esac
    [ -r "$table" ] || { echo "wrong: can't read $table" && exit 1; }
    while IFS= read -r given; do
        case $given in
            '' | '#'*) continue ;;
            row\ *)
                close
                open "${given#row }"
                continue
                ;;
        esac
        [ -n "$missing$why" ] || look "${given%% *}" "${given#* }"
    done <"$table"
    close
    name=''
    cd "$top" || exit 1
done
echo "$passed passed, $failed failed, $skipped skipped"
[ "$failed" -eq 0 ]
