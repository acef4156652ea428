# shellcheck shell=sh
# Where the program is. Where it is installed it lies beside the launcher. In a checkout the released program in dist/ is taken where it was
# built from these very sources, and needs no toolchain; otherwise the first call proves and builds the program.

released=$home/dist/celdrinn-x86_64-linux
built=$home/crates/q_main/out/q_main
# Written when the sources were last found to be those of the released program, and the program to start.
noted=${XDG_CACHE_HOME:-${HOME:-/nowhere}/.cache}/celdrinn$home/released

has_kit() { command -v rt >/dev/null 2>&1; }

# With the kit at hand sources may change, so all are looked at in each call. Without it they are looked at in the first call,
# and again when dist/ changes.
is_unchanged() {
    [ -f "$noted" ] && [ "$noted" -nt "$home/dist/SOURCES" ] && [ "$noted" -nt "$released" ] || return 1
    has_kit || return 0
    [ -z "$(find "$home/crates.txt" "$home/dist" "$home/crates" -path '*/out' -prune -o -path '*/must-fail' -prune -o \
        -path '*/data' -prune -o \( -type d -o -name '*.rt' -o -name '*.antt' -o -path "$home/crates.txt" \) \
        -cnewer "$noted" -print -quit 2>&1)" ]
}

# Whether a program starts here; if not, says why.
why_not=''
starts() {
    "$1" </dev/null >/dev/null 2>&1
    [ $? -eq 64 ] && return 0
    why_not="$1 does not start on this system ($("$1" 2>&1 </dev/null >/dev/null | head -n 1))"
    return 1
}

# Whether the released program was built from these sources and starts here. Finding out takes a tenth of a second, so the answer is kept in a
# file that is newer than what was looked at.
is_released() {
    if ! [ -x "$released" ]; then
        why_not="there is no released program in dist/"
        return 1
    fi
    is_unchanged && return 0
    if [ "$(uname -s) $(uname -m)" != "Linux x86_64" ]; then
        why_not="the released program is for Linux on x86-64"
        return 1
    fi
    mkdir -p "${noted%/*}" 2>/dev/null && touch "$noted.new" 2>/dev/null
    if [ "$("$home/bench/sources.sh")" != "$(cat "$home/dist/SOURCES")" ]; then
        why_not="the released program in dist/ was built from other sources than these"
        return 1
    fi
    starts "$released" || return 1
    mv "$noted.new" "$noted" 2>/dev/null
    return 0
}

is_built() {
    [ -x "$built" ] &&
        [ -z "$(find "$home/crates" -path '*/out' -prune -o \
            \( -name '*.rt' -o -name '*.antt' \) -newer "$built" -print | head -n 1)" ]
}

build() {
    if ! has_kit; then
        say "$why_not, and to build it anew takes Rattle's kit ('rt' on the PATH), which is not here"
        exit 70
    fi
    say "$why_not: it is proved and built anew, once, which may take an hour or more"
    build_log=$home/crates/q_main/build.log
    (cd "$home/crates/q_main" && rt run) >"$build_log" 2>&1 </dev/null
    if [ ! -x "$built" ]; then
        say "it was not built; see $build_log"
        exit 70
    fi
    touch "$built"
}

# Sets `program`.
find_program() {
    if [ -f "$home/program" ]; then
        program=$home/program
    elif is_released; then
        program=$released
    else
        program=$built
        is_built || build
    fi
}
