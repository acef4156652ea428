#!/bin/sh
# Joins what the parts of `annotate --part=I/N` wrote: the header, which the first part has, and then 1,000 lines of each in turn. Nothing here is to be
# trusted: a check of what is joined decides.
# Usage: join-lines.sh PART1 PART2 .. >HINTED
[ $# -gt 0 ] || { echo "usage: $0 PART1 PART2 .. >HINTED" >&2 && exit 64; }
exec awk '
    BEGIN {
        if ((getline line <ARGV[1]) > 0) print line
        do {
            lines = 0
            for (part = 1; part < ARGC; part++)
                for (k = 0; k < 1000 && (getline line <ARGV[part]) > 0; k++) {
                    print line
                    lines++
                }
        } while (lines)
        exit
    }' "$@"
