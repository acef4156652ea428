# Writes a formula in its canonical form (docs/FORMATS.md), also where it deviates from what is read in ways that leave no doubt what is meant, and
# says on standard error each thing that was changed. Ends with 1 where there is doubt. NAME in the environment is the file's name; header
# and prefix go to the file `head`, the clauses to `body`, the number of things that were changed to `count`. Bytes 0 come as 1, form feeds
# and vertical tabs as 2, the end of a DOS file as 3; CR as blanks.

function note(kind, text) {
    if (!(kind in times)) { order[++kinds] = kind; first[kind] = NR; says[kind] = text }
    times[kind]++
}
function doubt(text) { print ENVIRON["NAME"] ":" NR ": " text >"/dev/stderr"; failed = 1; exit 1 }
function abs(t) { return t < 0 ? -t : t }

# A token of a set or a clause.
function take(t,    n) {
    if (t ~ /^\+[0-9]+$/) { note("plus", "'" t "' is written " substr(t, 2)); t = substr(t, 2) }
    if (t ~ /^-0+$/) { note("zero", "'" t "' is written 0"); t = "0" }
    if (t !~ /^-?[0-9]+$/) doubt(wrong(t))
    sub(/^-0+/, "-", t)
    sub(/^0+/, "", t)
    if (t == "") t = "0"
    if (length(t) > 9 || abs(t + 0) > 16777215) doubt(t " is above the largest variable that is read, 16777215")
    n = abs(t + 0)
    if (n > largest) { largest = n; where = NR }
    if (set != "") {
        if (t ~ /^-/) doubt("'" t "' stands in a set, where numbers have no sign")
        if (n == 0) { set = ""; return }
        if (n in of_set) {
            if (of_set[n] != sets) doubt("variable " n " stands in two sets")
            note("twice", "variable " n " stands twice in a set, and is written once"); return
        }
        of_set[n] = sets
        bound[++bounds] = n
        quantifier[n] = set
        return
    }
    if (n == 0) { put_clause(); return }
    used[n] = 1
    insert(t + 0)
    open = 1
}
# The literals of a clause by variable, the negative one first, each once.
function insert(lit,    k) {
    for (k = many; k > 0 && (abs(row[k]) > abs(lit) || (row[k] == -lit && lit < 0)); k--) row[k + 1] = row[k]
    if (k > 0 && row[k] == lit) { for (k++; k <= many; k++) row[k] = row[k + 1]; return }
    row[k + 1] = lit
    many++
}
function put_clause(    k) {
    for (k = 1; k <= many; k++) printf "%d ", row[k] >body
    printf "0\n" >body
    clauses++; many = 0; open = 0
}
# Free variables are the outermost existentials, in ascending order; a variable of a set stays, also where no clause has it.
function put_prefix(    v, k, last) {
    for (v = 1; v <= largest; v++) if (v in used && !(v in quantifier)) last = put_variable(v, "e", last)
    for (k = 1; k <= bounds; k++) last = put_variable(bound[k], quantifier[bound[k]], last)
    if (last != "") printf " 0\n" >head
}
function put_variable(v, q, last) {
    if (q != last) printf "%s%s", (last == "" ? "" : " 0\n"), q >head
    printf " %d", v >head
    return q
}
function wrong(t) {
    if (t == "d") return "'d' begins a set of DQDIMACS, which is another logic"
    if (t == "x") return "'x' begins an exclusive or, which is another format"
    if (t == "v" || t == "V" || t == "s") return "this is a solver's answer"
    if (t == "p") return "here is a second header: are these two files?"
    if (t ~ /\001/) return "a byte 0 stands here"
    return "'" t "' is no number"
}
function begin_set(word) {
    if (open || set != "") doubt("the set or the clause before '" word "' has no 0")
    if (clauses > 0) doubt("'" word "' stands behind a clause")
    set = word; sets++
}

BEGIN { printf "" >body; heading = 0 }
NR == 1 && sub(/^\357\273\277/, "") { note("mark", "the byte order mark is left out") }
NR == 1 && (/^\377\376/ || /^\376\377/ || /^.\001/) { doubt("this is a text in UTF-16: 'iconv -f UTF-16 -t UTF-8' makes another one of it") }
gsub(/\002/, " ") { note("feed", "a form feed or a vertical tab is a blank") }
sub(/\003$/, "") { note("dos", "the byte 26 at the end is left out") }
heading == 1 && $1 == "cnf" { note("split", "the header is written on one line") }
/^[ \t]*c/ && !(heading == 1 && $1 == "cnf") { next }
/^[ \t]*#/ { note("hash", "a line that begins with '#' is a comment"); next }
done { if (NF > 0 && !(NF == 1 && $1 == "0")) doubt("something stands behind '%'"); next }
{
    for (i = 1; i <= NF; i++) {
        t = $i
        if (heading < 4) { take_header(t); continue }
        if (t == "%" && !open && set == "") { note("percent", "'%' and what is behind it are left out"); done = 1; next }
        if (t == "c" && !open && set == "") { note("comment", "a comment stands behind other words"); next }
        if (t ~ /^[AE]$/) { note("capital", "'" t "' is written " tolower(t)); t = tolower(t) }
        if (t == "a" || t == "e") { begin_set(t); continue }
        if (t ~ /^[ae][0-9]+$/) { note("glued", "'" t "' is written " substr(t, 1, 1) " " substr(t, 2)); begin_set(substr(t, 1, 1)); take(substr(t, 2)); continue }
        take(t)
    }
}
function take_header(t) {
    heading++
    if (heading <= 2 && t != tolower(t)) { note("letters", "'" t "' is written " tolower(t)); t = tolower(t) }
    if (heading == 1 && t != "p") doubt("there is no header 'p cnf V C' before '" t "'")
    if (heading == 2 && t != "cnf") doubt("'p " t "' begins another format")
    if (heading > 2 && t !~ /^[0-9]+$/) doubt("the header 'p cnf V C' has two numbers, and '" t "' is none")
    if (heading == 1) header_line = NR
    if (heading == 3) v = t
    if (heading == 4) c = t
}
END {
    if (failed) exit 1
    if (heading < 4) doubt(NR == 0 ? "the file is empty" : "there is no header 'p cnf V C'")
    if (open || set != "") doubt("the last 0 is missing: was the file cut off?")
    NR = header_line
    if (c + 0 != clauses + 0) note("clauses", "the header says " c " clauses, and here are " clauses + 0)
    if (v + 0 < largest + 0) note("variables", "the header says " v " variables, and " largest " stands in line " where)
    for (k = 1; k <= kinds; k++) {
        kind = order[k]
        print ENVIRON["NAME"] ":" first[kind] ": " says[kind] (times[kind] > 1 ? ", and so on, " times[kind] " times" : "") >"/dev/stderr"
    }
    print "p cnf " largest + 0 " " clauses + 0 >head
    put_prefix()
    print kinds + 0 >count
}
