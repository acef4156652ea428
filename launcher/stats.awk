# Makes the table of --stats: first two times two lines of the shell's `times`, then what the program said of its progress. `began` and `ended` are
# seconds, `peak` kilobytes, `bytes` those of the log, `steps` how many of its steps are additions, deletions, drops, new and removed variables.

function title(text,    line) {
    line = "--- [ " text " ] "
    while (length(line) < 62) line = line "-"
    print line
}
function seconds_of(text,    part) { split(text, part, "m"); sub(/s$/, "", part[2]); return part[1] * 60 + part[2] }
function share(part, whole) { return whole > 0 ? sprintf("%7.1f %%", 100 * part / whole) : "" }
function spend(phase, seconds) {
    if (seconds <= 0) return
    if (!(phase in spent)) phases[++phase_count] = phase
    spent[phase] += seconds
}
function size(line, which,    i, n, part, word) {
    sub(/^[a-z]*: */, "", line)
    n = split(line, part, /, */)
    for (i = 1; i <= n; i++) { split(part[i], word, " "); figures[which, word[2]] = word[1] }
}

NR == 2 { user = -seconds_of($1); system_time = -seconds_of($2) }
NR == 4 { user += seconds_of($1); system_time += seconds_of($2) }
NR <= 4 { next }

/^before: / { size($0, "before"); has_sizes = 1; next }
/^after: / { size($0, "after"); next }
/ moves proposed and taken$/ { moves = $1; next }
/^ +[0-9]+ / && moves != "" { count = $1; sub(/^ +[0-9]+ /, ""); rules[++rule_count] = $0; taken[rule_count] = count; next }
/^[0-9]+ s[,:]/ {
    # a second belongs to what is said at its end
    phase = is_last ? "last search" : "searching"
    if ($2 == "s:" && $3 == "reading") phase = "reading"
    if ($2 == "s," && !is_last) { phase = $3; sub(/:$/, "", phase) }
    spend(phase, $1 - at)
    at = $1
    if ($2 == "s:" && $3 == "last,") is_last = 1
}

END {
    wall = ended - began
    if (has_sizes) {
        title("formula")
        printf "%-28s %12s %12s\n", "", "before", "after"
        n = split("blocks variables clauses literals", names, " ")
        for (i = 1; i <= n; i++) printf "%-28s %12d %12d %s\n", names[i], figures["before", names[i]], figures["after", names[i]], share(figures["after", names[i]], figures["before", names[i]])
    }
    if (moves != "") {
        title("moves that were proposed and taken")
        for (i = 1; i <= rule_count; i++) if (taken[i] > 0) printf "%-28s %12d %12s %s\n", rules[i], taken[i], "", share(taken[i], moves)
        printf "%-28s %12d\n", "all", moves
    }
    if (bytes != "") {
        title("log")
        n = split("clauses added,clauses deleted,universal literals dropped,variables added,variables removed", names, ",")
        if (split(steps, step, " ") == n) {
            for (i = 1; i <= n; i++) all += step[i]
            for (i = 1; i <= n; i++) if (step[i] > 0) printf "%-28s %12d %12s %s\n", names[i], step[i], "", share(step[i], all)
            printf "%-28s %12d\n", "all steps", all
        }
        printf "%-28s %12d\n", "bytes", bytes
    }
    title("seconds and memory")
    if (at > 0) {
        spend(is_last ? "last search" : "the rest", wall - at)
        for (i = 1; i <= phase_count; i++) printf "%-28s %12.1f %12s %s\n", phases[i], spent[phases[i]], "", share(spent[phases[i]], wall)
    }
    printf "%-28s %12.2f\n", "all", wall
    printf "%-28s %12.2f %12s %s\n", "processor", user + system_time, "", share(user + system_time, wall)
    if (peak != "") printf "%-28s %12.1f MB\n", "memory at most", peak / 1024
}
