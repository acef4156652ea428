#!/bin/sh
# Checks one long log by a job array of Slurm: each job makes all steps, and judges every so many blocks of 1,000; all together say what one
# check says. Says `verified N`, or the refusal in the least line, and ends with 0 or 1; 12 where a part has not ended.
# Two files are a formula and a proof that it is false: then it is a `disprove` in parts, says `false N`, and ends with 20. -b reads a binary proof.
# FOLDER keeps the lines of parts that have ended, so a run that broke off goes on with the others. With -f the first part that is refused ends
# the others: the log is wrong then, but another part might have been refused in an earlier line. The three files, FOLDER and the program are to
# be seen from each node. -o gives words to sbatch, as in -o '--partition=long --time=2:00:00 --mem=8G'.
# With -w HINTED the parts write the log with hints, and one check of what is joined decides.
# Usage: examples/many-machines/check-slurm.sh [-n PARTS] [-d FOLDER] [-o OPTIONS] [-f] [-w HINTED] [IN OUT LOG] or [-b] IN PROOF
set -u
here=$(cd "$(dirname "$0")/.." && pwd)
. "$here/common.sh"
usage() { echo "usage: $0 [-n PARTS] [-d FOLDER] [-o OPTIONS] [-f] [-w HINTED] [IN OUT LOG] or [-b] IN PROOF" >&2 && exit 64; }
PARTS=4 FOLDER=parts FIRST='' HINTED='' BINARY='' options=''
while getopts n:d:o:fw:b option; do
    case $option in
        n) PARTS=$OPTARG ;;
        d) FOLDER=$OPTARG ;;
        o) options=$OPTARG ;;
        f) FIRST=yes ;;
        w) HINTED=$OPTARG ;;
        b) BINARY=--binary ;;
        *) usage ;;
    esac
done
shift $((OPTIND - 1))
case $PARTS in '' | *[!0-9]* | 0*) usage ;; esac
case $#$HINTED$BINARY in
    0) set -- "$here/parity.qdimacs" "$here/parity-out.qdimacs" "$here/parity.qrat" ;;
    2 | 2--binary) ;;
    *) if [ $# -ne 3 ] || [ -n "$BINARY" ]; then usage; fi ;;
esac
has sbatch || skip Slurm slurm-wlm

whole() { case $1 in /*) echo "$1" ;; *) echo "$PWD/$1" ;; esac; }
IN=$(whole "$1") FOLDER=$(whole "$FOLDER") PARTS_SH=$here/many-machines/parts.sh
if [ $# -eq 2 ]; then OUT='' LOG='' PROOF=$(whole "$2"); else OUT=$(whole "$2") LOG=$(whole "$3") PROOF=''; fi
[ -z "$HINTED" ] || HINTED=$(whole "$HINTED")
case $celdrinn in */*) CELDRINN=$(whole "$celdrinn") ;; *) CELDRINN=$celdrinn ;; esac
export IN OUT LOG PROOF BINARY PARTS FOLDER FIRST HINTED CELDRINN PARTS_SH
"$PARTS_SH" begin || exit
missing=$("$PARTS_SH" missing | paste -sd, -)
if [ -n "$missing" ]; then
    # shellcheck disable=SC2016,SC2086
    sbatch --wait --export=ALL --job-name=celdrinn --output=/dev/null --array="$missing" $options --wrap '
        "$PARTS_SH" run "$SLURM_ARRAY_TASK_ID"
        status=$?
        [ $status -ne 1 ] || [ -z "$FIRST" ] || scancel "$SLURM_ARRAY_JOB_ID"
        exit $status' >&2
fi
"$PARTS_SH" join
