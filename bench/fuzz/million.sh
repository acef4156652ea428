#!/usr/bin/env bash
# Plays random cases of every command with the released library, in memory, beside a reference of its own in C++.
#
# Usage: bench/fuzz/million.sh SECONDS [SEED] [JOBS] [OPTION..]; wants make and a compiler for C++17. SEED is 1 if not said, JOBS 1.
# OPTION is --verb=WORD (one command alone), --cases=N (no more than so many), --case=N (that case of the seed alone) or --keep=FOLDER.
#
# Each second the number of cases so far goes to standard error; at the end a table says how many cases of each command ended how. At the
# first difference the case is made small and kept in FOLDER, million-difference if not said, and the exit status is 1. The same seed plays
# the same cases, whatever JOBS is. ARCHIVE names the library, OUT the folder of what is compiled.
set -eu
here=$(cd "$(dirname "$0")" && pwd)
help() { sed -n '2,${/^#/!q;s/^# \{0,1\}//p}' "$0"; }
case ${1:-} in '' | *[!0-9]*) help && exit 64 ;; esac
seconds=$1 && shift
seed=1 jobs=1
case ${1:-} in [0-9]*) seed=$1 && shift ;; esac
case ${1:-} in [0-9]*) jobs=$1 && shift ;; esac
: "${OUT:=$here/million/build}" "${ARCHIVE:=$here/../../dist/libceldrinn-x86_64-linux.a}"
OUT=$(realpath -m "$OUT") ARCHIVE=$(realpath "$ARCHIVE")
make -s -C "$here/million" OUT="$OUT" ARCHIVE="$ARCHIVE"
status=0
"$OUT/million" --seconds="$seconds" --seed="$seed" --jobs="$jobs" "$@" || status=$?
echo "library $(sha256sum <"$ARCHIVE" | cut -d ' ' -f 1)"
exit $status
