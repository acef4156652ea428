#!/bin/sh
# What make and Slurm call for a check in parts: FOLDER has the line of each part that has ended, so a run that broke off goes on.
# The environment has IN, OUT, LOG, PARTS and FOLDER, and in CELDRINN the program. FOLDER, and all other names, are to be seen from each machine.
# With HINTED the parts write the log with hints, each its lines into FOLDER; these are joined as HINTED, and one check of it decides.
# With PROOF in place of OUT and LOG they are parts of `disprove`, and with BINARY the proof is read as a binary one.
# Usage: parts.sh begin | run PART | missing | join
set -u
here=$(cd "$(dirname "$0")" && pwd)

# a name that is no option
plain() { case $1 in -*) echo "./$1" ;; *) echo "$1" ;; esac; }
IN=$(plain "$IN") OUT=$(plain "${OUT-}") LOG=$(plain "${LOG-}") PROOF=$(plain "${PROOF-}") FOLDER=$(plain "$FOLDER") command=''
[ -z "$PROOF" ] || command=disprove

# a command over the files that are read
over_files() {
    if [ -n "$command" ]; then "$@" "$IN" "$PROOF"; else "$@" "$IN" "$OUT" "$LOG"; fi
}

can_be_read() {
    for name in "$@"; do
        { [ -r "$name" ] && [ -f "$name" ]; } || { echo "can't read '$name'" >&2 && exit 4; }
    done
}

case $1 in
    begin)
        # lines of other files, or of another number of parts, are of no use
        mkdir -p "$FOLDER" || exit 5
        over_files can_be_read
        { echo "$PARTS ${HINTED:+with hints}$command${BINARY:+ of a binary proof}" && over_files ls -lL --time-style=full-iso; } >"$FOLDER/now" || exit 5
        cmp -s "$FOLDER/now" "$FOLDER/of" || rm -f "$FOLDER"/*.line "$FOLDER"/*.new "$FOLDER"/*.part
        mv "$FOLDER/now" "$FOLDER/of"
        ;;
    run)
        [ ! -s "$FOLDER/$2.line" ] || exit 0
        if [ -n "$command" ]; then
            "$CELDRINN" disprove "$IN" "$PROOF" ${BINARY:+--binary} --part="$2/$PARTS" >"$FOLDER/$2.new"
        elif [ -z "${HINTED-}" ]; then
            "$CELDRINN" check "$IN" "$OUT" "$LOG" --part="$2/$PARTS" >"$FOLDER/$2.new"
        else
            "$CELDRINN" annotate "$IN" "$OUT" "$LOG" "$FOLDER/$2.part" --part="$2/$PARTS" >"$FOLDER/$2.new"
        fi
        status=$?
        # what was killed has said nothing, and a fault of the machine is no answer
        case $status in 0 | 1 | 3 | 64) mv "$FOLDER/$2.new" "$FOLDER/$2.line" ;; esac
        exit $status
        ;;
    missing)
        part=1
        while [ $part -le "$PARTS" ]; do
            [ -s "$FOLDER/$part.line" ] || echo $part
            part=$((part + 1))
        done
        ;;
    join)
        for name in "$FOLDER"/*.line "$FOLDER"/*.new; do
            [ -f "$name" ] || continue
            part=${name##*/}
            printf '%s\t%s\n' "${part%.*}/$PARTS" "$(head -n 1 "$name")"
        done | "$here/join.sh" "$PARTS" ${command:+"$command"} || exit
        [ -n "${HINTED-}" ] || exit 0
        # shellcheck disable=SC2046 # the names are numbers
        (cd "$FOLDER" && "$here/join-lines.sh" $(seq -f %g.part "$PARTS")) >"$HINTED" || exit 5
        "$CELDRINN" check "$IN" "$OUT" "$HINTED"
        ;;
esac
