#!/bin/sh
# Makes celdrinn-VERSION-x86_64-linux.tar.gz in the current folder, or in the one that is named: the released program, its launcher,
# pages, examples and tests, and what installs them; no sources. `./celdrinn` in it works where it was unpacked.
# Usage: packaging/tarball.sh [FOLDER]
set -u
to=$(cd "${1:-.}" && pwd) || exit 1
cd "$(dirname "$0")/.." || exit 1
version=$(packaging/version.sh) || exit 1
name=celdrinn-$version-x86_64-linux
work=$(mktemp -d) || exit 1
trap 'rm -rf "$work"' EXIT
umask 022

mkdir -p "$work/$name/crates/q_tests" "$work/$name/dist" "$work/$name/packaging" || exit 1
# in an archive the program lies beside the launcher
program=dist/celdrinn-x86_64-linux
[ -f "$program" ] || program=program
cp "$program" "$work/$name/program" || exit 1
[ ! -f dist/rows-x86_64-linux ] || cp dist/rows-x86_64-linux "$work/$name/dist/" || exit 1
cp -R celdrinn launcher VERSION README.md CHANGELOG.md LICENSE CITATION.cff Makefile completion docs examples help tests "$work/$name/" || exit 1
for library in dist/libceldrinn-x86_64-linux.a dist/libceldrinn-x86_64-linux.so.1; do
    [ ! -f "$library" ] || cp "$library" "$work/$name/dist/" || exit 1
done
cp -R packaging/* "$work/$name/packaging/" || exit 1
rm -rf "$work/$name/packaging/lib/build"
find "$work/$name" -name __pycache__ -prune -exec rm -rf {} +
packaging/date.sh >"$work/$name/packaging/date"
cp -R crates/q_tests/args crates/q_tests/data crates/q_tests/stdout "$work/$name/crates/q_tests/" || exit 1
chmod -R u+rwX,go+rX,go-w "$work/$name" || exit 1
# one owner, one date, one order: the same files make the same archive
tar -C "$work" --sort=name --owner=0 --group=0 --numeric-owner --mtime="@$(packaging/date.sh)" -cf "$work/tar" "$name" || exit 1
gzip -9n "$work/tar" && mv "$work/tar.gz" "$to/$name.tar.gz" && echo "$to/$name.tar.gz"
