#!/bin/sh
# Plays all tests with the released programs, which takes seconds and no kit: the rows of crates/q_tests, the rows about the program
# as a user meets it, and the scripts of examples/. Each wrong row has a line; the last line counts.
# Usage: tests/run.sh [-v], where -v shows the lines of all rows
set -u
cd "$(dirname "$0")/.." || exit 1
here=$PWD
verbose=${1:-}
work=$(mktemp -d) || exit 1
trap 'rm -rf "$work"' EXIT
trap 'exit 130' INT
trap 'exit 143' TERM
passed=0 failed=0 skipped=0

# Shows the lines of rows that were played, and counts them.
count() {
    if [ -n "$verbose" ]; then cat "$1"; else grep -v '^ok ' "$1"; fi
    passed=$((passed + $(grep -c '^ok ' "$1")))
    skipped=$((skipped + $(grep -c '^skipped ' "$1")))
    failed=$((failed + $(grep -c '^wrong ' "$1")))
}

# The rows over files in memory: one line each is wanted, and what is put is compared with it line by line.
play_rows() {
    player=$here/dist/rows-x86_64-linux
    if ! [ -f "$player" ]; then
        echo "skipped the rows of crates/q_tests: dist/ has no program that plays them"
        return
    fi
    cp -R crates/q_tests/data "$work/data"
    (cd "$work/data" && xargs "$player" <"$here/crates/q_tests/args") >"$work/put" 2>&1
    if cmp -s "$work/put" crates/q_tests/stdout; then
        grep '^ok ' "$work/put"
    else
        echo "wrong crates/q_tests: $(grep -v '^ok ' "$work/put" | head -n 1)"
    fi
}

# The same rows over a real folder, behind pipes and under limits on the size of files.
play_disk() {
    if ! command -v python3 >/dev/null; then
        echo "skipped the rows over a real folder: there is no python3"
        return
    fi
    # in an archive the program lies beside the launcher
    program=dist/celdrinn-x86_64-linux
    [ -f "$program" ] || program=./program
    python3 tests/disk/play.py "$program" crates/q_tests/data/*.rows >"$work/disk" 2>"$work/words"
    grep '^ok \|^wrong ' "$work/disk"
    tail -n 1 "$work/disk" | grep -q ' passed, ' || echo "wrong rows over a real folder: $(tail -n 1 "$work/words")"
}

# The figures of the release agree with each other.
play_version() {
    if packaging/version.sh >"$work/version" 2>&1; then
        echo "ok the version is the same everywhere"
    else
        echo "wrong version: $(cat "$work/version")"
    fi
}

# The completions and the list of commands are what the table of words says.
play_words() {
    if packaging/words.sh --check >"$work/words" 2>&1; then
        echo "ok the completions and the help are those of launcher/words.txt"
    else
        echo "wrong words: $(head -n 1 "$work/words")"
    fi
}

# The manual pages of the commands are what their help says.
play_man() {
    if packaging/man.sh --check >"$work/man" 2>&1; then
        echo "ok the manual pages are those of help/ and launcher/words.txt"
    else
        echo "wrong man: $(head -n 1 "$work/man")"
    fi
}

# The pictures are those that their script draws.
play_pictures() {
    if packaging/pictures.sh --check >"$work/pictures" 2>&1; then
        echo "ok the pictures are those that packaging/pictures.sh draws"
    else
        echo "wrong pictures: $(head -n 1 "$work/pictures")"
    fi
}

# What is played is an installation, so that nothing is built.
packaging/install.sh "$work/there" || exit 1
CELDRINN=${CELDRINN:-$work/there/bin/celdrinn}
export CELDRINN
if [ -x bench/sources.sh ] && [ "$(bench/sources.sh)" != "$(cat dist/SOURCES)" ]; then
    echo "note: the released programs in dist/ were built from other sources than these"
fi
play_rows >"$work/rows" && count "$work/rows"
play_disk >"$work/on_disk" && count "$work/on_disk"
play_version >"$work/versions" && count "$work/versions"
play_words >"$work/said" && count "$work/said"
play_man >"$work/said" && count "$work/said"
play_pictures >"$work/said" && count "$work/said"
tests/pages.sh README.md docs/TUTORIAL.md docs/A-CERTIFICATE.md docs/A-LOG.md docs/for-readers.md examples/README.md >"$work/pages.rows"
tests/sections.sh docs/PIPELINES.md examples/many-machines/README.md >"$work/sections.rows"
for table in tests/*.rows "$work/pages.rows" "$work/sections.rows"; do
    tests/play.sh "$table" >"$work/played"
    grep '^ok \|^wrong \|^skipped ' "$work/played" >"$work/table"
    tail -n 1 "$work/played" | grep -q ' skipped$' || echo "wrong $table: it was not played to its end" >>"$work/table"
    count "$work/table"
done
echo "$passed passed, $failed failed, $skipped skipped"
[ "$failed" -eq 0 ]
