# Writes binary AIGER as the text that is read (docs/FORMATS.md, "Circuits"): `aag`, a line for each input, the outputs, the gates, the symbols as they
# come. Ends with 1, and says at which byte and why, where the bytes are no binary AIGER. What a text can be refused for is left to the program:
# variables above the limit, latches, symbols. Bytes are a line's characters, and behind the last one stands a line end that is none of them;
# with `numbers` they come as numbers, from `od`. `size` is how many there are.

function fail(text) { printf "byte %d: %s\n", at, text >"/dev/stderr"; failed = 1; exit 1 }

# A whole line of the header, the outputs or the symbols.
function take_line(    word, k) {
    if (part == "header") {
        if (line !~ /^aig [0-9]+ [0-9]+ [0-9]+ [0-9]+ [0-9]+$/) fail("the header is not 'aig M I L O A'")
        split(line, word, " ")
        inputs = word[3]; outputs = word[5]; gates = word[6]
        print "aag " word[2] " " word[3] " " word[4] " " word[5] " " word[6]
        # the program refuses these by the header alone
        if (word[4] + 0 > 0 || word[2] + 0 > 268435456) { part = "rest"; return }
        if (word[2] + 0 != inputs + gates) fail("M is " word[2] ", and there are " inputs " inputs and " gates " gates")
        # each input has a symbol, of five bytes at least
        if (inputs * 5 > size) fail("there are " inputs " inputs, and the file has no room for their symbols")
        for (k = 1; k <= inputs; k++) print 2 * k
        part = "outputs"; left = outputs
    } else if (part == "outputs") {
        if (line !~ /^[0-9]+$/) fail("an output is a number alone on its line")
        print line
        left--
    } else {
        # a comment begins with c; ABC lets bytes follow it at once
        if (substr(line, 1, 1) == "c") { print "c"; part = "rest"; return }
        print line
    }
    line = ""
    if (part == "outputs" && left == 0) { part = "gates"; left = gates; gate = 2 * inputs + 2 }
    if (part == "gates" && left == 0) part = "symbols"
}

# A gate is two differences: of its number and its first operand, then of the two operands. Each is bytes of seven bits, the lowest first; all but
# the last byte have their highest bit.
function take_difference() {
    if (is_second) {
        if (difference > operand) fail("the second operand of gate " gate " is below 0")
        print gate, operand, operand - difference
        gate += 2
        if (--left == 0) part = "symbols"
    } else {
        if (difference == 0 || difference > gate) fail("the first operand of gate " gate (difference == 0 ? " is the gate itself" : " is below 0"))
        operand = gate - difference
    }
    is_second = !is_second
    difference = 0; scale = 1
}
function take_gates(first,    i, byte) {
    for (i = first; i <= count && left > 0; i++) {
        at++
        byte = numbers ? $i : code[substr(bytes, i, 1)]
        if (byte > 127) {
            difference += (byte - 128) * scale
            scale *= 128
            if (scale > 1e15) fail("a difference of more than 8 bytes")
        } else {
            difference += byte * scale
            take_difference()
        }
    }
    return i
}

# Bytes of a line or of gates; those behind the symbols are not looked at.
function take_all(    i, byte) {
    for (i = 1; i <= count && part != "rest";) {
        if (part == "gates") { i = take_gates(i); continue }
        at++
        byte = numbers ? $i : code[substr(bytes, i, 1)]
        if (byte == 10) take_line()
        else line = line (byte > 31 && byte < 127 ? sprintf("%c", byte) : "\001")
        i++
    }
}

BEGIN {
    for (k = 0; k < 256; k++) code[sprintf("%c", k)] = k
    part = "header"; scale = 1
}
part == "rest" { next }
numbers { count = NF; take_all(); next }
{
    bytes = (NR > 1 ? "\n" : "") $0
    count = length(bytes)
    take_all()
}
END {
    if (failed) exit 1
    if (part == "symbols" && line != "") take_line()
    if (part == "header" || part == "outputs" || part == "gates") { at++; fail("the file ends within its " part) }
}
