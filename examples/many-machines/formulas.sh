#!/bin/sh
# Simplifies and checks all formulas of a folder (*.qdimacs), as many at a time as -j says, and prints a table with a line for each: its name, what
# `simplify` said, the status, processor seconds, the peak in MiB, and what `check` said. A formula that is refused stops itself alone.
# RESULTS (by default FOLDER/results) has OUT, LOG and the line of each; what is done is not done again, so a run that broke off goes on. With
# other options, and for a formula that is newer than its line, it is. Names may have blanks, colons and whatever else, but no line end.
# GNU parallel is called where it is there, with -s on other hosts too; else xargs. With -a it is a job array of Slurm, JOBS at a time, and -o gives
# words to sbatch. Hosts and nodes have to see FOLDER and this folder by the same names; CELDRINN is the program's name there.
# Usage: examples/many-machines/formulas.sh [-j JOBS] [-s HOST,HOST..] [-a] [-o OPTIONS] [-r RESULTS] FOLDER [OPTION..], as in formulas.sh -j4 f --grow=16
set -u
here=$(cd "$(dirname "$0")/.." && pwd)
. "$here/common.sh"
usage() { echo "usage: $0 [-j JOBS] [-s HOST,HOST..] [-a] [-o OPTIONS] [-r RESULTS] FOLDER [OPTION..]" >&2 && exit 64; }
jobs=$(nproc 2>/dev/null || echo 2)
hosts='' array='' words='' results=''
while getopts j:s:ao:r: option; do
    case $option in
        j) jobs=$OPTARG ;;
        s) hosts=$OPTARG ;;
        a) array=yes ;;
        o) words=$OPTARG ;;
        r) results=$OPTARG ;;
        *) usage ;;
    esac
done
shift $((OPTIND - 1))
[ $# -gt 0 ] || usage
whole() { case $1 in /*) echo "$1" ;; *) echo "$PWD/$1" ;; esac; }
folder=$(whole "$1")
shift
results=$(whole "${results:-$folder/results}")
[ -d "$folder" ] || { echo "no such folder: '$folder'" >&2 && exit 4; }
mkdir -p "$results" || exit 5
one=$here/many-machines/one.sh
case $celdrinn in */*) CELDRINN=$(whole "$celdrinn") ;; *) CELDRINN=$celdrinn ;; esac
FORMULAS=$results/formulas
export CELDRINN FORMULAS
for formula in "$folder"/*.qdimacs; do
    [ ! -f "$formula" ] || printf '%s\n' "$formula"
done >"$FORMULAS"
count=$(grep -c . "$FORMULAS")

if [ "$count" -eq 0 ]; then
    echo "no formula in '$folder'" >&2
elif [ -n "$array" ]; then
    has sbatch || skip Slurm slurm-wlm
    # each job takes the line of its number; its words are arguments of the script
    cat >"$results/job.sh" <<'JOB'
#!/bin/sh
one=$1 results=$2
shift 2
exec "$one" "$results" "$(sed -n "${SLURM_ARRAY_TASK_ID}p" "$FORMULAS")" "$@"
JOB
    # shellcheck disable=SC2086
    sbatch --wait --export=ALL --job-name=celdrinn --output=/dev/null --array="1-$count%$jobs" $words "$results/job.sh" "$one" "$results" "$@" >&2
elif has parallel; then
    [ -z "$hosts" ] || hosts="--sshlogin $hosts --env CELDRINN"
    # shellcheck disable=SC2086
    parallel --will-cite -q -j "$jobs" $hosts "$one" "$results" {} "$@" <"$FORMULAS"
else
    tr '\n' '\0' <"$FORMULAS" | xargs -0 -P "$jobs" -I '{}' "$one" "$results" '{}' "$@"
fi

# The table: lines of formulas that are there now, in the order of their names.
while IFS= read -r formula; do
    name=${formula##*/}
    line=$results/${name%.qdimacs}.tsv
    if [ -f "$line" ]; then cut -f 1-6 "$line"; else printf '%s\t-\t-\t-\t-\t-\n' "${name%.qdimacs}"; fi
done <"$FORMULAS" >"$results/table.tsv"
cat "$results/table.tsv"
awk -F '\t' '
    $3 == 10 { yes++ } $3 == 20 { no++ } $3 == 0 || $3 == 2 { left++ } $6 ~ /^verified / { verified++ }
    END {
        printf "%d formulas: %d true, %d false, %d simplified, %d without an end; %d logs verified\n", NR, yes, no, left, NR - yes - no - left, verified
        exit yes + no + left != NR || verified != NR
    }' "$results/table.tsv"
