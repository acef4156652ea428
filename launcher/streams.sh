# shellcheck shell=sh
# Files that are packed by their names, and the standard streams: what the program reads or writes instead are pipes with names, and
# beside it run the tools that pack and unpack.

# Sets `packer` to the tool for a name, or to nothing.
find_packer() {
    case $1 in
        *.gz) packer=gzip ;;
        *.xz) packer=xz ;;
        *.zst) packer=zstd ;;
        *.bz2) packer=bzip2 ;;
        *) packer= ;;
    esac
}

# Writes what a file is when it is unpacked.
unpacked() {
    find_packer "$1"
    case $packer in
        '') cat <"$1" ;;
        *) $packer -dc <"$1" ;;
    esac
}

# Packs standard input into a file, which is made when the first byte comes. A pipe that the program never wrote to leaves it as it was.
pack() {
    trap '' INT TERM HUP QUIT
    byte=$(dd bs=1 count=1 2>/dev/null)
    [ -n "$byte" ] || return 0
    : >"$work/$2.begun"
    { printf %s "$byte" && cat; } | $1 -c >"$3"
}

# Sets `number` to a descriptor that is free: those of names as /dev/fd/3 are the caller's.
given_numbers='' our_numbers=''
spare_number() {
    for number in 9 8 7 6 5 4 3; do
        case $given_numbers$our_numbers in *$number*) ;; *) break ;; esac
    done
    our_numbers=$our_numbers$number
}
# Closes our descriptors in a shell that others are started from, but not the one that is named.
close_ours() {
    for number in 3 4 5 6 7 8 9; do
        case $our_numbers in *$number*) [ $number = "${1-}" ] || eval "exec $number>&-" ;; esac
    done
}

# Sets `way` to the name under which the program reads a file: its name and role. A signal that goes to all is the launcher's to answer: a tool that
# it ended would cut the file off.
readers=''
read_by() {
    way=$1
    case $1 in
        -) way=/dev/stdin ;;
        -*) way=./$1 ;;
    esac
    packer=
    [ ! -f "$1" ] || find_packer "$1"
    if [ -n "$packer" ]; then
        command -v $packer >/dev/null || { say "to read '$1' takes $packer, which is not here" && answer 'read fault' 4; }
        [ -r "$1" ] || answer 'read fault' 4
    fi
    case $2 in SKOLEM | HERBRAND | CERT) read_circuits "$1" "$2" && return ;; esac
    [ -n "$packer" ] || return 0
    way=$work/$2
    mkfifo "$way" || finish 5
    (trap '' TERM && close_ours && exec $packer -dc <"$1" >"$way") &
    readers="$readers $!"
}

# Sets `file` to a name under which a file can be read as often as one likes: what comes from a pipe or by a descriptor is stored.
store() {
    file=$1
    case $1 in
        /dev/stdin | /dev/fd/* | /proc/self/fd/*) ;;
        *) [ ! -f "$1" ] || return 0 ;;
    esac
    file=$work/$2
    { cat <"$1" >"$file"; } 2>/dev/null || { line='read fault' status=4 && return 1; }
}

# Sets `way` to the name under which the program writes a file. What goes to standard output goes through a pipe, and the line to standard
# error. The launcher holds each pipe open for writing until the program has ended, so that no tool waits in vain for its first byte. It opens
# the tool's end too, before the tool is there, and lets go of it: so the tool never waits for a writer that has ended already, and the program
# is told where a tool has ended before it.
writers='' nulls=/dev/null is_moved='' packed=''
write_by() {
    way=$1
    case $1 in
        none) way=$nulls nulls=/$nulls && return ;;
        -) ;;
        *)
            case $1 in -*) way=./$1 ;; esac
            find_packer "$1"
            { [ ! -e "$1" ] || [ -f "$1" ]; } && [ -n "$packer" ] || return 0
            command -v $packer >/dev/null || { say "to write '$1' takes $packer, which is not here" && answer 'write fault' 5; }
            ;;
    esac
    way=$work/$2
    mkfifo "$way" || finish 5
    spare_number && hold=$number
    [ "$1" != - ] || { spare_number && is_moved=$number && eval "exec $number>&1" && exec 1>&2; }
    spare_number && eval "exec $number<>\"\$way\" $hold>\"\$way\" $number<\"\$way\""
    if [ "$1" = - ]; then
        (trap '' TERM && eval "exec >&$is_moved <&$number" && close_ours && exec cat) &
    else
        (eval "exec <&$number" && close_ours && pack $packer "$2" "$1") &
        packed="$packed$2 $packer $1
"
    fi
    writers="$writers $!"
    eval "exec $number<&-"
    our_numbers=${our_numbers%?}
}

# Ends the tools when the program has ended, and says in `read_failed` and `write_failed` whether one of them failed.
read_failed='' write_failed=''
end_streams() {
    close_ours
    for process in $readers; do
        kill -KILL "$process" 2>/dev/null
        wait "$process" 2>/dev/null
        code=$?
        [ $code -eq 0 ] || [ $code -gt 128 ] || read_failed=yes
    done
    for process in $writers; do
        wait "$process"
        code=$?
        [ $code -eq 0 ] || [ $code -eq 141 ] || write_failed=yes
    done
    readers='' writers='' our_numbers=''
}

# A file that was written and is empty is packed too: the log of a formula that no rule fits.
pack_empty() {
    printf %s "$packed" | while IFS=' ' read -r role tool name; do
        [ -e "$work/$role.begun" ] || $tool -c </dev/null >"$name"
    done
}
