#!/bin/sh
# Makes a table for tests/play.sh of a page whose commands speak of files that a reader has: each section is a row, in a folder of its own with such
# files (`f.qdimacs`, `f.cnf`, `circuit.blif`, `skolem.aag` ..), and its commands (lines of a block of code that begin with a known word) are run.
# Left out is what wants the shared library on the system, other hosts or Slurm (tests/library.rows and tests/machines.rows have these). Usage: tests/sections.sh PAGE .. >TABLE
set -u
for page; do
    awk -v page="$page" '
        function is_command(line) { return line ~ /^(celdrinn|depqbf|cadical|berkeley-abc|cc|ls|make|parallel|printf|zcat|[.]\/linked|examples\/[a-z\/-]*[.]sh) / && line !~ /pkg-config|slurm| -s one| -a / }
        function has(pattern,    i) { for (i = 1; i <= count; i++) if (commands[i] ~ pattern) return 1; return 0 }
        function take(line) {
            # the circuit that is here has two parameters
            sub(/circuit[.]blif 16 /, "circuit.blif 2 ", line)
            sub(/^cc /, "CPATH=there/include LIBRARY_PATH=there/lib cc ", line)
            sub(/^[.]\/linked /, "LD_LIBRARY_PATH=there/lib ./linked ", line)
            if (line ~ /[<>]\(/) { gsub(/[\\"$`]/, "\\\\&", line); line = "bash -c \"" line "\"" }
            commands[++count] = line
        }
        function put(    i, k, n, tools) {
            if (count == 0) return
            print "row " page ", " section
            n = split("depqbf cadical berkeley-abc bash cc make parallel xz zstd", tools, " ")
            for (k = 1; k <= n; k++) if (has("(^|[ |.])" tools[k] "([ .]|$)") || (tools[k] == "xz" && has("[.]xz")) || (tools[k] == "zstd" && has("[.]zst")) ||
                (tools[k] == "parallel" && has("check-parallel")) || (tools[k] == "depqbf" && has("celdrinn certify")) || (tools[k] == "berkeley-abc" && has("circuit-to-"))) print "wants " tools[k]
            formula = has("herbrand[.]aag") ? "lamp-early" : has("skolem[.]aag|small[.]aig") ? "lamp" : "random"
            print "do ln -s \"$examples\" \"$top/docs\" . && cp examples/" formula ".qdimacs f.qdimacs && cp examples/pigeons.cnf f.cnf && cp examples/multiplexer.blif circuit.blif"
            print "do mkdir formulas && cp f.qdimacs formulas/ && echo aag 0 0 0 0 0 >skolem.aag && cp skolem.aag herbrand.aag"
            print "do celdrinn simplify f.qdimacs g.qdimacs f.qrat; gzip -k f.qdimacs f.qrat; celdrinn solve examples/lamp.qdimacs /dev/null //dev/null cert.aag"
            if (has("there/lib")) print "do \"$top/packaging/install.sh\" \"$PWD/there\""
            for (i = 1; i <= count; i++) { print "do " commands[i]; print "ends" }
        }
        /^## / { put(); section = substr($0, 4); count = 0; line = ""; next }
        /^    / {
            text = substr($0, 5)
            sub(/^[$] /, "", text)
            if (line != "") { sub(/^ */, "", text); line = line " " text }
            else if (is_command(text)) line = text
            else next
            if (sub(/ *\\$/, "", line) || line ~ /[|]$/) next
            take(line); line = ""
            next
        }
        END { put() }' "$page"
done
