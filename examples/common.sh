# shellcheck shell=sh disable=SC2034 # the scripts read what is set here
# What the scripts of this folder share; each of them reads it and runs nothing of it by itself. `here` is the folder.
# CELDRINN names the program, where it is neither the launcher of this repository nor on the PATH.

# `--help` prints the lines at the head of a script.
case ${1-} in
    --help | -h)
        sed -n -e '1d' -e '/^#/!q' -e 's/^# \{0,1\}//p' "$0"
        exit 0
        ;;
esac
celdrinn=${CELDRINN:-$here/../celdrinn}
[ -f "$celdrinn" ] || celdrinn=celdrinn
command -v "$celdrinn" >/dev/null || {
    echo "skipped: celdrinn is not on the PATH, and CELDRINN doesn't name it"
    exit 0
}

# What the launcher and the scripts share lies beside the launcher.
parts=$(dirname "$(readlink -f "$(command -v "$celdrinn")")")/launcher
[ -f "$parts/solvers.sh" ] || parts=$here/../launcher
within=''
. "$parts/solvers.sh"

# A folder for files that nobody needs afterwards.
work=$(mktemp -d) || exit 1
trap 'rm -rf "$work"' EXIT
trap 'exit 130' INT
trap 'exit 143' TERM

# Ends the script where a tool is missing: its name and Debian's package.
skip() {
    echo "skipped: $1 is not installed (on Debian: apt-get install $2)"
    exit 0
}

# Writes a packed file as it was before, by its name.
unpack() {
    case $1 in
        *.gz) gzip -dc <"$1" ;;
        *.bz2) bzip2 -dc <"$1" ;;
        *.xz | *.lzma) xz -dc <"$1" ;;
        *.zst) zstd -q -dc <"$1" ;;
        *) cat <"$1" ;;
    esac
}

# Sets `file` to a name under which awk and solvers take a file, as often as they like: what is packed or comes from a pipe is stored,
# and a folder stands before a name such as `n=4`, which awk would take for an assignment, or `-x`, an option.
taken=0
take() {
    file=$1
    [ "$file" != - ] || file=/dev/stdin
    { [ -r "$file" ] && [ ! -d "$file" ]; } || { echo "can't read '$1'" >&2 && exit 4; }
    case $file in -* | [!/.]*=*) file=./$file ;; esac
    case $file in *.gz | *.bz2 | *.xz | *.lzma | *.zst) ;; *) [ ! -f "$file" ] || return 0 ;; esac
    taken=$((taken + 1))
    unpack "$file" >"$work/taken$taken" || { echo "can't unpack '$1'" >&2 && exit 4; }
    file=$work/taken$taken
}

# Whether a log is one with hints: its first word is `p`.
has_hints() { [ "$(awk '/^[ \t\r]*c/ { next } NF > 0 { print $1; exit }' "$1")" = p ]; }

# Sets `to` to a name under which a program writes a file, also where it begins as an option does.
name_to() { case $1 in -?*) to=./$1 ;; *) to=$1 ;; esac; }

# Ends the script where a file that is written would be one that is read: their names.
keep_apart() {
    [ "$1" = "$2" ] || [ "$1" -ef "$2" ] || return 0
    echo "'$1' and '$2' are one file, which would be written over" >&2
    exit 64
}

# Sets `abc` to ABC's name, which is another one in Debian.
find_abc() {
    for abc in berkeley-abc abc; do
        has "$abc" && return
    done
    skip ABC berkeley-abc
}

# Solves a CNF with a SAT solver that is there, `by`: 10 for satisfiable, 20 for unsatisfiable; the model, as `v` lines, is put
# into the second file.
solve_sat() {
    find_sat_solver || skip "CaDiCaL or MiniSat" cadical
    by=$sat
    (become_sat_solver "$sat" "$1" "$2.said")
    found=$?
    model_of "$2.said" >"$2"
    return $found
}

# The outputs of a circuit file, each on a line: its variable and its literal, which is 0 or 1 where the circuit is a constant.
outputs_of() {
    awk 'FNR == 1 { inputs = $3; outputs = $5; next }
        FNR > 1 + inputs && FNR <= 1 + inputs + outputs { literal[FNR - 2 - inputs] = $1; next }
        /^o/ { print $2, literal[substr($1, 2)] }' "$1"
}
