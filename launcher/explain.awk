# Says what is wrong in a line of a file, with its words and numbers. `kind` is formula, log, trace or circuits, `at` the line and `cause` the number
# of the refusal. It only says what was refused, and decides nothing. Bytes 0 come as 1. `is_binary` says that the text was made of binary AIGER.

function is_number(t) { return t ~ /^-?[0-9]+$/ && t !~ /^-0+$/ }
function abs(t) { sub(/^-/, "", t); return t + 0 }
function bare(t) { sub(/^-?0*/, "", t); return t }
function cut(text) { sub(/^ +/, "", text); return length(text) > 60 ? substr(text, 1, 57) "..." : text }
function put(text) { if (!said) print text; said = 1; exit }

# What a file is that is none of its kind, by its first bytes.
function look_at_head() {
    if (head ~ /^\037\213/) return "this is packed by gzip: under a name that ends in .gz it is unpacked"
    if (head ~ /^\3757zXZ/) return "this is packed by xz: under a name that ends in .xz it is unpacked"
    if (head ~ /^\050\265\057\375/) return "this is packed by zstd: under a name that ends in .zst it is unpacked"
    if (head ~ /^BZh/) return "this is packed by bzip2: under a name that ends in .bz2 it is unpacked"
    if (head ~ /^PK\003\004/) return "this is an archive of zip"
    if (head ~ /^(\377\376|\376\377)/ || head ~ /^.\001/) return "this is a text in UTF-16"
    if (head ~ /^\357\273\277/) return "a byte order mark stands before the text"
    if (head ~ /^aag /) return "these are circuits in AIGER"
    if (head ~ /^aig /) return "these are circuits in binary AIGER"
    if (head ~ /^aig2 /) return "this is a form of AIGER that ABC alone has: 'write_aiger' without -c writes what is read"
    if (head ~ /^#QCIR/) return "this is QCIR"
    if (head ~ /^\.model/ || head ~ /^\.inputs/) return "this is a circuit in BLIF: examples/circuit-to-qdimacs.sh makes a formula of it"
    if (head ~ /^p qrat/) return "this is a log with hints"
    if (kind == "formula" && head ~ /^[dur] -?[0-9]/) return "this is a log; which file stands where is in 'celdrinn --help'"
    if (head ~ /^p bqrp/) return "this is a binary trace: depqbf writes a text with --trace=qrp"
    if (head ~ /^p qrp/ && kind != "trace") return "this is a solver's trace, for 'celdrinn extract'"
    if (head ~ /^p +(wcnf|inccnf|qcnf|dqcnf)/) { split(head, word, " "); return "this is " word[2] ", another format" }
    if (head ~ /^[vVs] /) return "this is a solver's answer"
    return ""
}

NR == 1 { head = substr($0, 1, 80) }
!said_head && kind == "formula" && cause == 1 && NR == 1 { text = look_at_head(); if (text != "") put(text) }
kind != "formula" && NR <= at && $0 !~ /^[ \t]*c/ && NF > 0 && first == "" { first = $1 " " $2 }
kind != "formula" && NR == at {
    text = look_at_head()
    if (first == "p cnf") text = "this is a formula; which file stands where is in 'celdrinn --help'"
    if (text != "" && (NR == 1 || first == "p cnf")) put(text)
    if ($0 ~ /[\001-\010\016-\037\177-\377]/) put("bytes that are no text stand here")
    put(cut($0))
}
kind != "formula" { next }

# A formula, up to the line that is refused; of its clauses all are counted.
/^[ \t]*c/ { next }
NF > 0 && !begun {
    begun = 1
    if (cause == 1) {
        if ($1 == "p" && $2 == "cnf") put("V and C are two numbers, and here stands '" cut($0) "'")
        if ($1 == "P" || $2 == "CNF") put("small letters are wanted: 'p cnf'")
        if ($1 == "p") put("the first line of the text has to be 'p cnf V C'")
        if ($1 ~ /^#/) { is_hash = 1; begun = 0; next }
        if (is_hash) put($0 ~ /^[.]/ ? "this is a circuit in BLIF: examples/circuit-to-qdimacs.sh makes a formula of it" : "a comment begins with 'c'")
        put("there is no header before '" cut($0) "'")
    }
}
{
    for (i = 1; i <= NF; i++) {
        t = $i
        if (heading < 4) { heading++; if (heading == 3) v = t + 0; if (heading == 4) c = t + 0; continue }
        if (NR == at && cause == 2 && !is_number(t) && !((t == "a" || t == "e") && set == "" && !many)) {
            if (t ~ /^[ae][0-9]+$/) put("'" t "' wants a blank: '" substr(t, 1, 1) " " substr(t, 2) "'")
            if (t ~ /^-0+$/) put("'" t "' has a sign")
            if (t == "c") put("a comment begins a line of its own")
            if (t == "%") put("'%' is the end of a file of SATLIB")
            if (t == "p") put("a second header stands here: are these two files?")
            if (t ~ /\032/) put("the byte 26 stands here, the end of a file of DOS")
            if (t ~ /[\013\014]/) put("a form feed or a vertical tab stands here, which is no blank")
            if (t ~ /^[AE]$/ || t ~ /^\+[0-9]+$/) put("'" t "' is not read")
            if (t == "x") put("'x' begins an exclusive or, which is another format")
            if (t == "v" || t == "V" || t == "s") put("this is a solver's answer")
            if (t == "d") put("'d' begins a set of DQDIMACS, which is not read")
            if (t == "a" || t == "e") put("the set before '" t "' has no 0")
            put(t ~ /\001/ ? "a byte 0 stands here" : "'" t "' is no number")
        }
        if (t == "a" || t == "e") { set = t; if (NR == at && cause == 5) put("'" t "' stands behind a clause"); continue }
        if (NR == at && cause == 2 && set != "" && t ~ /^-/) put("'" t "' stands in a set, where numbers have no sign")
        if (NR == at && cause == 3 && is_number(t) && abs(t) > v) put(bare(t) " stands here, and the header says " v)
        if (set != "") {
            if (t + 0 == 0) set = ""
            else if (t in bound) { if (NR == at && cause == 4) put("variable " t " stands in a set before") }
            else bound[t] = set
            continue
        }
        many = t + 0 != 0
        if (!many) found++
    }
}
END {
    if (said) exit
    if (NR == 0) put("the file is empty")
    if (kind == "circuits" && cause == 7 && is_binary) put("ABC writes symbols with 'write_aiger -s'")
    if (kind != "formula") exit
    if (cause == 1 && is_hash) put("a comment begins with 'c'")
    if (cause == 1 && !begun) put("there are comments alone")
    if (cause == 1) put("the header breaks off")
    if (cause == 6) put("the header says " c " clauses, and here are " found + many)
    if (cause == 7) put("the last 0 is missing: was the file cut off?")
    if (cause == 8 && v > 16777215) put("variables are at most 16777215")
    if (cause == 8 && c > 33554432) put("clauses are at most 33554432")
}
