#!/bin/sh
# Installs the released program, or takes it away again: what lies in PREFIX/lib/celdrinn is all that a call needs. Pages, completions
# and examples go to PREFIX/share. Files are put below DESTDIR, as packages want it.
# Usage: packaging/install.sh [--remove] [PREFIX [DESTDIR]]
set -u
cd "$(dirname "$0")/.." || exit 1
umask 022
remove=
[ "${1:-}" != --remove ] || { remove=yes && shift; }
prefix=${1:-/usr/local}
root=${2:-}$prefix
case $prefix in
    /*) ;;
    *) echo "install: PREFIX is a whole path, as /usr/local or $PWD/$prefix" >&2 && exit 64 ;;
esac

lib=$root/lib/celdrinn
archive=$root/lib/libceldrinn.a
shared=$root/lib/libceldrinn.so
headers=$root/include
told=$root/lib/pkgconfig/celdrinn.pc
doc=$root/share/doc/celdrinn
bash_completion=$root/share/bash-completion/completions/celdrinn
zsh_completion=$root/share/zsh/site-functions/_celdrinn
fish_completion=$root/share/fish/vendor_completions.d/celdrinn.fish
pages=$root/share/man/man1

if [ -n "$remove" ]; then
    rm -rf "$lib" "$doc"
    rm -f "$archive" "$shared" "$shared.1" "$headers/celdrinn.h" "$headers/celdrinn2.h" "$told"
    rm -f "$root/bin/celdrinn" "$bash_completion" "$zsh_completion" "$fish_completion" "$pages/celdrinn.1" "$pages"/celdrinn-*.1
    exit
fi

# In a checkout the program is in dist/, in an unpacked release beside the launcher.
program=dist/celdrinn-x86_64-linux
[ -f "$program" ] || program=./program
[ -f "$program" ] || { echo "install: there is no released program in dist/" >&2 && exit 1; }
"$program" </dev/null >/dev/null 2>&1
if [ $? -ne 64 ] && [ -z "${2:-}" ]; then
    echo "install: the program does not start on this system ($("$program" 2>&1 </dev/null >/dev/null | head -n 1))" >&2
    exit 70
fi

# Copies files into a folder, which is made.
put() {
    mode=$1 folder=$2
    shift 2
    mkdir -p "$folder" && cp "$@" "$folder" || exit 1
    for file; do chmod "$mode" "$folder/${file##*/}" || exit 1; done
}

put_as() {
    mkdir -p "${3%/*}" && cp "$2" "$3" && chmod "$1" "$3" || exit 1
}

rm -rf "$lib"
put 755 "$lib" celdrinn
put_as 755 "$program" "$lib/program"
put 644 "$lib" VERSION
put 644 "$lib/launcher" launcher/*
put 644 "$lib/help" help/*.txt
# The libraries for programs in C, where they are there: the proved calls, and the shared one.
if [ -f dist/libceldrinn-x86_64-linux.a ]; then
    put_as 644 dist/libceldrinn-x86_64-linux.a "$archive"
    put_as 644 packaging/celdrinn.h "$headers/celdrinn.h"
fi
if [ -f dist/libceldrinn-x86_64-linux.so.1 ]; then
    put_as 644 dist/libceldrinn-x86_64-linux.so.1 "$shared.1"
    ln -sf libceldrinn.so.1 "$shared" || exit 1
    put_as 644 packaging/lib/celdrinn2.h "$headers/celdrinn2.h"
    mkdir -p "${told%/*}" && chmod 755 "${told%/*}" || exit 1
    sed "s|@PREFIX@|$prefix|; s|@VERSION@|$(sed -n '1s/^celdrinn //p' VERSION)|" packaging/lib/celdrinn.pc.in >"$told" && chmod 644 "$told" || exit 1
    # so that programs find it where the system looks for libraries; who may not do that has other ways
    [ -n "${2:-}" ] || ! command -v ldconfig >/dev/null || ldconfig 2>/dev/null || :
fi
mkdir -p "$root/bin" && ln -sf ../lib/celdrinn/celdrinn "$root/bin/celdrinn" || exit 1
put 644 "$doc" README.md CHANGELOG.md LICENSE CITATION.cff
put 644 "$doc/docs" docs/*.md
put 644 "$doc/docs/pictures" docs/pictures/*.svg
for file in examples/* examples/*/*; do
    [ -f "$file" ] || continue
    mode=644
    [ ! -x "$file" ] || mode=755
    folder=${file%/*}
    put $mode "$doc/$folder" "$file"
done
put 644 "$pages" docs/celdrinn.1 docs/man/*.1
put_as 644 completion/celdrinn.bash "$bash_completion"
put_as 644 completion/_celdrinn "$zsh_completion"
put_as 644 completion/celdrinn.fish "$fish_completion"
