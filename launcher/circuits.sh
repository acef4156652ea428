# shellcheck shell=sh
# Circuits in binary AIGER, as ABC and others write them. The program reads the text, which is made here before it starts. What is no binary AIGER is
# handed to the program as it is, and refused by it like any other file that is no text; here stands only why.

# Whether a file begins as binary AIGER does.
is_binary_aiger() { [ "$(dd bs=4 count=1 <"$1" 2>/dev/null | tr '\000' x)" = 'aig ' ]; }

# Writes binary AIGER as a text. Not every awk takes a byte 0; for these od writes the bytes as numbers.
as_text() {
    size=$(wc -c <"$1")
    if [ "$(printf 'a\000b\n' | LC_ALL=C awk '{ print length($0) }')" = 3 ]; then
        { cat <"$1" && echo; } | LC_ALL=C awk -v size="$size" -f "$parts/aiger.awk"
    else
        LC_ALL=C od -An -v -tu1 <"$1" | LC_ALL=C awk -v size="$size" -v numbers=1 -f "$parts/aiger.awk"
    fi
}

# Makes the text of a file, for a role; where it is none, the reason stays in the file `ROLE.why`. Ends with 2 where the text could not be written.
make_text() {
    as_text "$1" >"$work/$2.aag" 2>"$work/$2.why" && return 0
    rm -f "$work/$2.aag"
    case $(cat "$work/$2.why") in byte\ *) return 1 ;; *) return 2 ;; esac
}

# Passes on what comes from a pipe, and its text where it is binary AIGER.
pass_circuits() {
    head=$(dd bs=1 count=4 2>/dev/null | LC_ALL=C od -An -v -to1)
    # shellcheck disable=SC2086
    head=$(printf '\\0%s' $head)
    case $head in
        '\0141\0151\0147\0040')
            { printf 'aig ' && cat; } >"$work/$1.given" && make_text "$work/$1.given" "$1"
            case $? in
                0) exec cat "$work/$1.aag" ;;
                1) exec cat "$work/$1.given" ;;
                *) : >"$work/$1.broken" ;;
            esac
            ;;
        '\0') ;;
        *) printf %b "$head" && exec cat ;;
    esac
}

# Sets `way` to what the program reads as circuits, where `read_by` has set it to a file, a pipe or a device: the name and the role. What is
# packed comes from its tool. What can't be read is left to the program.
read_circuits() {
    if [ -z "$packer" ] && [ -f "$way" ]; then
        is_binary_aiger "$way" || return 0
        make_text "$way" "$2"
        case $? in
            0) way=$work/$2.aag ;;
            2) say "the text of '$1' could not be written to a file for it" && answer 'read fault' 4 ;;
        esac
        return 0
    fi
    [ -r "$way" ] && [ ! -d "$way" ] || return 0
    from=$way way=$work/$2
    mkfifo "$way" || finish 5
    spare_number && eval "exec $number<&0"
    (
        eval "exec <&$number" && close_ours
        if [ -n "$packer" ]; then
            exec >"$way"
            { $packer -dc <"$1" || : >"$work/$2.broken"; } | pass_circuits "$2"
        else
            exec <"$from" >"$way" && (pass_circuits "$2")
        fi
        [ ! -e "$work/$2.broken" ]
    ) &
    readers="$readers $!"
    eval "exec $number<&-"
    our_numbers=${our_numbers%?}
}
