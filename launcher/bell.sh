# shellcheck shell=sh
# A run of `simplify` that is stopped: at the first INT or TERM the launcher makes a file, for which the program looks again and again, and the
# program stops: with a line, OUT and LOG. A later signal ends it at once. The program itself is deaf to both, since
# who sends them may send them to all that was started; and to the launcher twice, as `timeout` does, so a second one counts two seconds later
# only, and a third one at any time.

# Where the file comes to be, in the launcher's own folder; nothing where a run is not stopped so. `killer` ends the program.
bell='' rung='' signals=0 killer=TERM

# From now on a signal rings.
hang_bell() {
    bell=$work/bell killer=KILL
    trap 'ring INT' INT
    trap 'ring TERM' TERM
}
ring() {
    signals=$((signals + 1))
    if [ $signals -gt 2 ] || { [ -n "$rung" ] && [ $(($(date +%s) - rung)) -ge 2 ]; }; then stop "$1"; fi
    [ -z "$rung" ] || return 0
    rung=$(date +%s)
    : >"$bell"
    [ -z "$beside" ] || kill -TERM "$beside" 2>/dev/null
    [ -n "$quiet" ] || say "stopping, and what is reached will be written; a later signal ends this at once"
}
# The run is over, so a signal ends the launcher again.
take_bell_down() {
    trap 'stop INT' INT
    trap 'stop TERM' TERM
}

# In the shell that becomes the program.
hear_bell() {
    [ -n "$bell" ] || return 0
    trap '' INT TERM
    CELDRINN_BELL=$bell
    export CELDRINN_BELL
}

# Waits for the program, and sets `status`. A signal that rings ends the `wait` before the program has ended, and so it waits anew. What it has
# waited for already has the number 127.
wait_for_program() {
    status=127
    while :; do
        before=$signals
        wait "$child"
        code=$?
        [ $code -eq 127 ] || status=$code
        [ "$signals" -ne "$before" ] || return 0
    done
}
