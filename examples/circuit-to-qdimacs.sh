#!/bin/sh
# Writes the formula that asks whether there are parameters under which the output of a circuit is true for all its other inputs. The circuit
# is in BLIF or AIGER (`aag`, `aig`), known by its first word, without latches.
# PARAMETERS says how many of the circuit's inputs, from the first on, are parameters. The formula's variables are in three
# blocks: parameters, the other inputs, each in the circuit's order, and what ABC needs for the gates.
# Usage: examples/circuit-to-qdimacs.sh CIRCUIT PARAMETERS >FORMULA
set -u
here=$(cd "$(dirname "$0")" && pwd)
[ "${1-}" = --help ] || exec 3>&1 >&2
. "$here/common.sh"
find_abc
take "${1:-$here/multiplexer.blif}" && circuit=$file
parameters=${2:-2}

# ABC writes the formula beside the circuit, under its name; of AIGER it reads the binary form alone. The number of inputs stands in AIGER's header.
read_inputs() {
    LC_ALL=C head -n 1 "$circuit" | tr -d '\000' | {
        IFS=' ' read -r _ _ inputs latches outputs _
        [ "${latches:-1}" = 0 ] || { echo "a circuit without latches is wanted" && return 1; }
        [ "${outputs:-0}" = 1 ] || { echo "a circuit with one output is wanted" && return 1; }
        echo "$inputs" >&3
    } 3>"$work/inputs" && inputs=$(cat "$work/inputs")
}
case $(LC_ALL=C head -c 4 "$circuit" | tr -d '\000') in
    'aag ')
        read_inputs || exit 1
        "$here/to-binary-aiger.sh" "$circuit" "$work/circuit.aig" || exit 1
        reads="read_aiger $work/circuit.aig"
        ;;
    'aig ')
        read_inputs || exit 1
        cp "$circuit" "$work/circuit.aig" || exit 1
        reads="read_aiger $work/circuit.aig"
        ;;
    *)
        inputs=$(awk '/\\$/ { sub(/\\$/, ""); line = line $0 " "; next } { $0 = line $0; line = "" } $1 == ".inputs" { n += NF - 1 } END { print n + 0 }' "$circuit")
        cp "$circuit" "$work/circuit.blif" || exit 1
        reads="read_blif $work/circuit.blif"
        ;;
esac
"$abc" -c "$reads; strash; qbf -d -P $parameters" >"$work/abc.txt"
[ -f "$work/circuit.qdimacs" ] || { cat "$work/abc.txt" && exit 1; }

# ABC's `qbf` asks that too, but the formula that it writes has the blocks the other way round: the parameters are universal
# there, and all else is existential. The numbers behind the parameters' are the other inputs.
awk -v others=$((inputs - parameters)) '
    $1 == "a" { last = $(NF - 1); sub(/^a/, "e"); print; next }
    $1 == "e" {
        all = "a"; rest = "e"
        for (i = last + 1; i <= last + others; i++) { all = all " " i; is_input[i] = 1 }
        for (i = 2; i < NF; i++) if (!($i in is_input)) rest = rest " " $i
        print all " 0"; print rest " 0"; next
    }
    { print }' "$work/circuit.qdimacs" >&3
