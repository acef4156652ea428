# shellcheck shell=sh
# What is wrong with the words of a call is said here, before the program starts. `look` reads the table of words, and leaves the names
# that the program gets in the order of the operands, and its options in `passed`.

# A line of the table by its first word: the words behind it go to `second`, `third` and `fourth`.
find_line() {
    while IFS='|' read -r first second third fourth; do
        first=${first% }
        case $first in
            "$1" | "$1="* | "$1[="*) return 0 ;;
        esac
    done <"$parts/words.txt"
    return 1
}

# The options of a command, of all its lines.
take_options() {
    options=
    while IFS='|' read -r first second third fourth; do
        [ "${first% }" != "$command" ] || options="$options$third"
    done <"$parts/words.txt"
}

# All first words of the table that begin so, for who has misspelt one.
first_words() { sed -n -e 's/^\([a-z][a-z]*\) |.*/\1/p' -e 's/^\(--[a-z]*\).*/\1/p' "$parts/words.txt" | uniq | grep -e "$1"; }

# The word of a list that is the nearest to another one, as a question, or nothing.
did_you_mean() { awk -v given="$1" -f "$parts/nearest.awk"; }

# A word that is wrong is said; the call is refused when all of them were looked at.
wrong=
complain() {
    say "$*"
    wrong=yes
}

# Whether a row of digits is above another one, which has no leading zeros.
is_above() {
    digits=$1
    while :; do
        case $digits in 0?*) digits=${digits#0} ;; *) break ;; esac
    done
    [ ${#digits} -le ${#2} ] || return 0
    [ ${#digits} -eq ${#2} ] && [ "$(printf '%s\n' "$digits" "$2" | LC_ALL=C sort | head -n 1)" != "$digits" ]
}

# Looks at a number: what it is, the number, and the least and the greatest one as in `1..100`.
look_at_number() {
    case $2 in
        '' | *[!0-9]*) complain "$1 is a number of digits alone, and '$2' is none" ;;
        *[!0]*) if is_above "$2" "${3#*..}"; then complain "$1 is at most ${3#*..}, and '$2' is more"; fi ;;
        *) [ "${3%%..*}" = 0 ] || complain "$1 is at least ${3%%..*}" ;;
    esac
}

# Looks at a share I/N.
look_at_share() {
    case $2 in
        */*/* | *[!0-9/]* | /* | */ | */0*) complain "$1 is a share as in $1=1/4, and '$2' is none" ;;
        */*) if case ${2%/*} in *[!0]*) is_above "${2%/*}" "${2#*/}" ;; esac; then complain "$1: the parts are 1 to ${2#*/}"; fi ;;
        *) complain "$1 is a share as in $1=1/4, and '$2' is none" ;;
    esac
}

# Takes an option. What is the program's goes to `passed`; what is the launcher's sets a variable of its name.
passed='' seen='' best='' force='' quiet='' verbose='' stats='' seconds='' solver='' herbrand='' check='' time=''
take_option() {
    option=${1%%=*}
    option=${option#--}
    case " $options quiet verbose " in
        *" $option "*) ;;
        *)
            # shellcheck disable=SC2086
            near=$(printf -- '--%s\n' $options quiet verbose | did_you_mean "$1")
            complain "no such option of $command: '$1'${near:-; see 'celdrinn help $command'}"
            return
            ;;
    esac
    find_line "--$option" || return
    case " $seen " in *" $option "*) complain "--$option stands twice" && return ;; esac
    seen="$seen $option"
    case ${second# }:$1 in
        'flag :--'*=*) complain "--$option takes no number" && return ;;
        'flag :'* | *:--best) ;;
        'word :'*) [ "${1#*=}" != "$1" ] && [ -n "${1#*=}" ] || { complain "'$1': a name follows behind '=', as in '--$option=cadical'" && return; } ;;
        *:"--$option") complain "'$1': the number follows behind '=', as in '$1=16'" && return ;;
        'share :'*) look_at_share "--$option" "${1#*=}" ;;
        *) second=${second# } && look_at_number "--$option" "${1#*=}" "${second% }" ;;
    esac
    case $option in
        best) best=${1#--best} best=${best#=} best=${best:-10} ;;
        force) force=yes ;;
        quiet) quiet=yes ;;
        verbose) verbose=yes ;;
        check) check=yes ;;
        stats) stats=yes ;;
        with) solver=${1#*=} ;;
        seconds) seconds=${1#*=} ;;
        time) time=${1#*=} passed="$passed $1" ;;
        herbrand) herbrand=$1 ;;
        *) passed="$passed $1" ;;
    esac
}

# Whether two names are one place: one file, or what would become one.
are_one() {
    if [ -e "$1" ] || [ -e "$2" ]; then
        [ "$1" -ef "$2" ] && [ -f "$1" ]
        return
    fi
    if [ -L "$1" ] || [ -L "$2" ]; then
        [ "$(readlink -f -- "$1")" = "$(readlink -f -- "$2")" ]
        return
    fi
    [ "${1##*/}" = "${2##*/}" ] || return 1
    case $1 in */*) folder_1=${1%/*}/ ;; *) folder_1=. ;; esac
    case $2 in */*) folder_2=${2%/*}/ ;; *) folder_2=. ;; esac
    [ "$folder_1" -ef "$folder_2" ]
}

# Says why a file can't be read, as the system puts it. The program says the rest.
look_at_read() {
    [ -n "$1" ] || { say "a file's name is empty" && return; }
    if [ -d "$1" ] || ! [ -r "$1" ]; then
        case $1 in /*) path=$1 ;; *) path=./$1 ;; esac
        say "can't read '$1': $(LC_ALL=C cat "$path" 2>&1 >/dev/null | sed 's/.*: //')"
    fi
}

# Says why a file can't be written, and ends the call then: a long run would find that out at its end.
look_at_written() {
    why=
    case $1 in */*) folder=${1%/*}/ ;; *) folder=. ;; esac
    if [ -z "$1" ]; then
        why='its name is empty'
    elif [ -d "$1" ]; then
        why='Is a directory'
    elif [ -e "$1" ]; then
        [ -w "$1" ] || why='Permission denied'
    elif [ -L "$1" ] && ! readlink -f -- "$1" >/dev/null; then
        why='its link leads nowhere'
    elif ! [ -d "$folder" ]; then
        why='No such file or directory'
    elif base=${1##*/} && [ ${#base} -gt 255 ]; then
        why='File name too long'
    elif ! [ -w "$folder" ]; then
        why="its folder can't be written to"
    fi
    [ -n "$why" ] || return 0
    say "can't write '$1': $why"
    answer 'write fault' 5
}

# Whether a file begins as a formula does: behind comments and blank lines stands `p cnf`.
is_formula() {
    [ -f "$1" ] && [ -s "$1" ] && [ -r "$1" ] && unpacked "$1" 2>/dev/null |
        LC_ALL=C awk '{ gsub(/\r/, " ") } NF == 0 || /^[ \t\r]*c/ { next } { found = ($1 == "p" && $2 == "cnf"); exit } END { exit !found }' 2>/dev/null
}

# A formula that is there is not written over, unless --force says so. OUT may be where its LOG is named and is no formula: then the pair is
# made anew.
guard() {
    case " $options " in *' force '*) ;; *) return 0 ;; esac
    [ -z "$force" ] && is_formula "$2" || return 0
    if [ "$1" = OUT ] && [ -n "$log" ] && [ -e "$log" ] && ! is_formula "$log"; then return 0; fi
    case $1 in
        OUT) complain "'$2' is a formula that is there already; --force writes over it" ;;
        *) complain "'$2' is a formula, and $1 would be written over it; if that is meant, --force does it" ;;
    esac
}

# Of `annotate` the third name is written over, where the second is a proof; who gives a formula means the other files.
look_at_proof() {
    case $command:$role in annotate:PROOF) ;; *) return ;; esac
    ! is_formula "$1" || complain "'$1' is a formula, and no proof: annotate takes $(shown_lines)"
}

# The kind, the role and the default of an operand.
divide() {
    kind=${1%"${1#?}"}
    role=${1#?}
    default=
    case $role in *=*) default=${role#*=} role=${role%%=*} ;; esac
}

# Looks at a name of one operand: which it is, the name, and then all operands and names.
look_at_name() {
    divide "$1"
    case $kind:$2 in
        '#:'*)
            find_line "$role" && second=${second# } && look_at_number "$role" "$2" "${second% }"
            return
            ;;
        '<:-') inputs="$inputs/" ;;
        '>:-' | '>:/dev/stdout' | '>:/dev/fd/1' | '>:/proc/self/fd/1') outputs="$outputs/" ;;
        '>:none') return ;;
        '<:'*) look_at_read "$2" && look_at_proof "$2" ;;
        '>:'*) look_at_written "$2" && guard "$role" "$2" ;;
    esac
    case $inputs in //*) refuse "standard input serves once" ;; esac
    case $outputs in //*) refuse "standard output takes one file" ;; esac
    case $2 in - | /dev/stdout | /dev/fd/1 | /proc/self/fd/1) return ;; esac
    # nothing that is read or written may be where the line goes
    if [ -f /dev/stdout ] && [ /dev/stdout -ef "$2" ]; then
        refuse "'$2' is where standard output goes, and what comes there would be written over it"
    fi
    if [ "$kind" = '>' ] && [ -f /dev/stderr ] && [ /dev/stderr -ef "$2" ]; then
        refuse "'$2' is where standard error goes"
    fi
}

# Compares the names of a call, two at a time: `compare OPERAND NAME OPERAND NAME ..`
compare() {
    while [ $# -gt 2 ]; do
        divide "$1"
        kind_1=$kind name_1=$2
        shift 2
        compare_with "$@"
    done
}
compare_with() {
    while [ $# -gt 0 ]; do
        divide "$1"
        compare_two "$2"
        shift 2
    done
}
compare_two() {
    case $kind_1$kind in *'#'*) return ;; esac
    case $name_1:$1 in -:* | none:* | *:- | *:none) return ;; esac
    if [ "$kind_1$kind" != '<<' ] && are_one "$name_1" "$1"; then
        refuse "'$name_1' and '$1' are one file, and $command would write over it"
    fi
    [ "$name_1" = "$1" ] || return 0
    if [ -p "$1" ]; then refuse "'$1' is named twice, and a pipe serves once"; fi
    case $1 in /*) another=/$1 ;; *) another=./$1 ;; esac
    refuse "'$1' is named twice: the names of one command have to be different ($another is another name)"
}

# The operands as a user writes them: IN [OUT [LOG]].
shown_operands() {
    shown='' close=''
    # shellcheck disable=SC2086
    for operand in $operands; do
        divide "$operand"
        case $operand in
            *=*) shown="$shown [$role" close="$close]" ;;
            *) shown="$shown $role" ;;
        esac
    done
    echo "${shown# }$close"
}

# How many words are wanted at least, and at most.
count_operands() {
    least=0 most=0
    for operand in $operands; do
        most=$((most + 1))
        case $operand in *=*) ;; *) least=$most ;; esac
    done
}

# Takes the line of the command that has so many names, and the first where none has.
choose_line() {
    while IFS='|' read -r first second third fourth; do
        [ "${first% }" = "$command" ] || continue
        operands=$second options=$third
        count_operands
        if [ "$1" -ge $least ] && [ "$1" -le $most ]; then return; fi
    done <"$parts/words.txt"
    find_line "$command" && operands=$second options=$third
    count_operands
}

# What a command takes, as a user writes it, by all its lines.
shown_lines() {
    all=
    while IFS='|' read -r first second third fourth; do
        [ "${first% }" = "$command" ] && operands=$second && all="$all${all:+, or }$(shown_operands)"
    done <"$parts/words.txt"
    echo "$all"
}

# Whether options that stand in the call are those of other files.
look_at_options() {
    for option in $seen; do
        case " $options quiet verbose " in
            *" $option "*) ;;
            *) complain "'--$option' is not for $command $(shown_operands)" ;;
        esac
    done
}

# Looks at the names of a call, and goes on with `start` and one name for each operand.
look() {
    choose_line $#
    look_at_options
    if [ $# -lt $least ]; then
        piped=
        case $#:$operands in 0:*'<'*) if [ -p /dev/stdin ] || [ -s /dev/stdin ]; then piped=" ('-' is standard input)"; fi ;; esac
        refuse "$command takes $(shown_lines); see 'celdrinn help $command'$piped"
    elif [ $# -gt $most ]; then
        shift $most
        many=
        case $1 in *.qdimacs | *.cnf | *.dimacs | *.qdimacs.* | *.cnf.*) many="; many formulas are for examples/many.mk" ;; esac
        refuse "too many words for $command: '$1'${many:-; see 'celdrinn help $command'}"
    fi
    inputs='' outputs='' log='' place=0
    count=$#
    for operand in $operands; do
        place=$((place + 1))
        case $operand in '>LOG'*) [ $place -gt $count ] || eval "log=\${$place}" ;; esac
        if [ $place -gt $count ]; then
            divide "$operand"
            [ -n "$default" ] || break
            set -- "$@" "$default"
        fi
    done
    place=0 count=$#
    for operand in $operands; do
        place=$((place + 1))
        [ $place -le $count ] || break
        look_at_name "$operand" "$1"
        given=$1
        shift
        case $kind:$given in '>:/dev/stdout' | '>:/dev/fd/1' | '>:/proc/self/fd/1') given=- ;; esac
        set -- "$@" "$operand" "$given"
    done
    compare "$@"
    [ -z "$wrong" ] || refuse
    start "$@"
}
