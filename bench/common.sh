# What the shell scripts of bench/ share; it is read by them, not called. The comment at the head of a script is its help. Words are names and
# options, --NAME=VALUE or --NAME, in any order. CELDRINN names the program, by default the released one.
# shellcheck shell=bash
export CELDRINN_PROGRESS=0
top=$(cd "$(dirname "${BASH_SOURCE[0]}")/.." && pwd)
# shellcheck disable=SC2034
program=$(realpath "${CELDRINN:-$top/dist/celdrinn-x86_64-linux}")
work=$(mktemp -d) || exit 1
trap 'rm -rf "$work"' EXIT
names=()

help() { sed -n '2,${/^#/!q;s/^# \{0,1\}//p}' "$0"; }

# Puts the names of the words into `names`, and the value of each known option into option_NAME: take_words "OPTION .." WORD ..
take_words() {
    local known=" $1 " word name
    shift
    for word; do
        case $word in
            --help) help && exit ;;
            --*)
                name=${word#--}
                name=${name%%=*}
                [[ $known == *" $name "* ]] || { echo "no such option: $word ($0 --help)" >&2 && exit 64; }
                case $word in *=*) printf -v "option_$name" %s "${word#*=}" ;; *) printf -v "option_$name" yes ;; esac
                ;;
            *) names+=("$word") ;;
        esac
    done
}

# Ends where a tool is not here.
want() {
    local tool
    for tool; do
        command -v "$tool" >/dev/null || { echo "skipped: $tool is not here" && exit; }
    done
}
