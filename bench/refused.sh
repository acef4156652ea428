#!/usr/bin/env bash
# Refuses each allocation of some runs in turn, in the built program, and says what it answers then: `no memory` with status
# 6, or what it answers with all its memory (where only a guide or the kernel's journal went without). Anything else is a
# fault, and is listed.
#
# Usage: bench/refused.sh; wants a C compiler
set -u
# shellcheck source=common.sh
. "$(dirname "$0")/common.sh"
take_words "" "$@"
want cc
examples=$top/examples
cc -shared -fPIC -O1 -o "$work/refuse.so" "$top/bench/refuse.c" -ldl || exit 1
cd "$work" || exit 1

bad=0 all=0
refuse() {
    REFUSE_OUT=$work/count LD_PRELOAD=$work/refuse.so "$program" "$@" >wanted 2>/dev/null
    local status=$? count no=0 same=0 silent=0
    count=$(cat count)
    for n in $(seq 1 "$count"); do
        REFUSE=$n LD_PRELOAD=$work/refuse.so "$program" "$@" >got 2>/dev/null
        local now=$?
        if [ "$now" = 6 ]; then
            # before the words and the guides are made nothing is put
            if [ -s got ] && [ "$(cat got)" != "no memory" ]; then
                echo "$1, allocation $n: status 6 and $(cat got)"
                bad=1
            fi
            [ -s got ] || silent=$((silent + 1))
            no=$((no + 1))
        elif [ "$now" = "$status" ] && cmp -s got wanted; then
            same=$((same + 1))
        else
            echo "$1, allocation $n: status $now and $(cat got)"
            bad=1
        fi
    done
    all=$((all + count))
    echo "$* : $count allocations, $no times no memory ($silent without a line), $same times as without"
}

refuse simplify "$examples/equivalence.qdimacs" out log
refuse simplify "$examples/false.qdimacs" out log
refuse check "$examples/equivalence.qdimacs" "$examples/equivalence-out.qdimacs" "$examples/equivalence.qrat"
refuse rebuild "$examples/equivalence.qdimacs" "$examples/equivalence-out.qdimacs" "$examples/equivalence.qrat" \
    "$examples/equivalence-out.aag" cert
refuse annotate "$examples/equivalence.qdimacs" "$examples/equivalence-out.qdimacs" "$examples/equivalence.qrat" hinted
"$program" annotate "$examples/equivalence.qdimacs" "$examples/equivalence-out.qdimacs" "$examples/equivalence.qrat" with-hints >line
refuse check "$examples/equivalence.qdimacs" "$examples/equivalence-out.qdimacs" with-hints
refuse rebuild "$examples/equivalence.qdimacs" "$examples/equivalence-out.qdimacs" with-hints "$examples/equivalence-out.aag" cert
refuse refute "$examples/parity.qdimacs" "$examples/parity-out.qdimacs" "$examples/parity.qrat" "$examples/parity-out.aag" cert
refuse validate "$examples/equivalence.qdimacs" "$examples/equivalence.aag"
refuse solve "$examples/equivalence.qdimacs" out log cert
refuse gen 7 5 formula
refuse check "$examples/parity.qdimacs" "$examples/parity-out.qdimacs" "$examples/parity.qrat" --part=1/2
refuse check "$examples/parity.qdimacs" "$examples/parity-out.qdimacs" "$examples/parity.qrat" --part=2/2
for part in 1/2 2/2; do
    refuse annotate "$examples/parity.qdimacs" "$examples/parity-out.qdimacs" "$examples/parity.qrat" hinted --part=$part
done
refuse disprove "$examples/parity.qdimacs" "$examples/parity.qrat"
printf 'p cnf 2 4\n1 2 0\n-1 2 0\n1 -2 0\n-1 -2 0\n' >cnf
printf 'a\004\000d\002\004\000a\000' >bytes
refuse disprove cnf bytes
for part in 1/2 2/2; do
    refuse disprove "$examples/parity.qdimacs" "$examples/parity.qrat" --part=$part
    refuse disprove cnf bytes --part=$part
    refuse annotate cnf bytes hinted --part=$part
done
refuse disprove cnf bytes cert
refuse annotate cnf bytes hinted
refuse annotate "$examples/parity.qdimacs" "$examples/parity.qrat" hinted
"$program" annotate cnf bytes with-hints >line
refuse disprove cnf with-hints
refuse disprove "$examples/parity.qdimacs" "$examples/parity.qrat" cert
refuse apply "$examples/equivalence.qdimacs" "$examples/equivalence.qrat" out
printf 'p cnf 2 2\na 1 0\ne 2 0\n1 2 0\n-1 -2 0\n' >formula
printf 'p qrp 2 2\na 1 0\ne 2 0\n3 1 -2 0 0\n4 -1 2 0 0\n5 1 0 3 0\n6 -1 0 4 0\n7 0 5 6 0\nr SAT\n' >trace
refuse extract formula trace cert
refuse miter "$examples/equivalence.qdimacs" "$examples/equivalence.aag" out
"$program" refute "$examples/parity.qdimacs" "$examples/parity-out.qdimacs" "$examples/parity.qrat" "$examples/parity-out.aag" herbrand >line
refuse miter "$examples/parity.qdimacs" herbrand out --herbrand
echo "$all allocations in all"
exit "$bad"
