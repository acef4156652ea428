# shellcheck shell=sh
# `--stats`: a table on standard error, of what a run did and what it took. Sizes, rules and phases are those that the program says of its
# progress; steps are counted in the log; seconds and memory are the system's figures of its process.

# The program was started as `child`.
begin_stats() {
    began=$(date +%s.%N)
    times >"$work/times.before"
    (close_ours && watch_memory "$child" >/dev/null 2>&1) &
    watcher=$!
}
# Notes the largest memory of a process, or of its child where it is `timeout`, ten times a second, while it is there.
watch_memory() {
    while kill -0 "$1"; do
        watched=$(cat "/proc/$1/task/$1/children")
        watched=${watched%% *}
        kilobytes=$(sed -n 's/^VmHWM:[^0-9]*\([0-9]*\).*/\1/p' "/proc/${watched:-$1}/status")
        [ -z "$kilobytes" ] || echo "$kilobytes" >"$work/peak"
        sleep 0.1
    done
}
end_stats() {
    times >"$work/times.after"
    ended=$(date +%s.%N)
    kill "$watcher" 2>/dev/null
    wait "$watcher" 2>/dev/null
}

# How many steps of each kind a log has: additions, deletions, drops, variables that are added and that go. The program writes a step on a line.
steps_of() { unpacked "$1" | LC_ALL=C awk '{ steps[index("duer", substr($0, 1, 1))]++ } END { for (k = 0; k < 5; k++) printf "%d ", steps[k] }'; }

# The table, once the run is over.
show_stats() {
    log=${name_LOG-}
    case $command in simplify | solve) ;; *) log= ;; esac
    [ -f "$log" ] || log=
    # a pass over a very long log would take longer than it tells
    steps=
    [ -z "$log" ] || [ "$(wc -c <"$log")" -gt 1000000000 ] || steps=$(steps_of "$log")
    cat "$work/times.before" "$work/times.after" "$words" | LC_ALL=C awk -v began="$began" -v ended="$ended" \
        -v peak="$(cat "$work/peak" 2>/dev/null)" -v bytes="${log:+$(wc -c <"$log")}" -v steps="$steps" -f "$parts/stats.awk" >&2
}
