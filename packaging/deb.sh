#!/bin/sh
# Makes celdrinn_VERSION-1_amd64.deb in the current folder, or in the one that is named, from the released program in dist/.
# It takes dpkg-deb and nothing else of Debian's. Usage: packaging/deb.sh [FOLDER]
set -u
to=$(cd "${1:-.}" && pwd) || exit 1
cd "$(dirname "$0")/.." || exit 1
command -v dpkg-deb >/dev/null || { echo "deb: dpkg-deb is not installed (on Debian: apt-get install dpkg)" >&2 && exit 1; }
version=$(packaging/version.sh)-1 || exit 1
maintainer="Celdrinn maintainers <maintainers@users.noreply.celdrinn.example>"
SOURCE_DATE_EPOCH=$(packaging/date.sh)
export SOURCE_DATE_EPOCH
work=$(mktemp -d) || exit 1
trap 'rm -rf "$work"' EXIT
umask 022
root=$work/root
mkdir "$root" && packaging/install.sh /usr "$root" || exit 1

doc=$root/usr/share/doc/celdrinn
rm "$doc/LICENSE"
{
    echo "Format: https://www.debian.org/doc/packaging-manuals/copyright-format/1.0/"
    echo "Upstream-Name: Celdrinn"
    echo
    echo "Files: *"
    sed -n 's/^Copyright (c) /Copyright: /p' LICENSE
    echo "License: MIT"
    sed -n '/^Permission/,$p' LICENSE | sed -e 's/^$/./' -e 's/^/ /'
} >"$doc/copyright"
{
    echo "celdrinn ($version) unstable; urgency=medium"
    echo
    echo "  * The released program, as CHANGELOG.md describes it."
    echo
    echo " -- $maintainer  $(LC_ALL=C date -u -R -d "@$SOURCE_DATE_EPOCH")"
} | gzip -9n >"$doc/changelog.Debian.gz"
gzip -9n <"$doc/CHANGELOG.md" >"$doc/changelog.gz" && rm "$doc/CHANGELOG.md" || exit 1
gzip -9n "$root"/usr/share/man/man1/*.1
# zsh and fish look for a package's completions elsewhere
mkdir -p "$root/usr/share/zsh/vendor-completions" &&
    mv "$root/usr/share/zsh/site-functions/_celdrinn" "$root/usr/share/zsh/vendor-completions/" &&
    rmdir "$root/usr/share/zsh/site-functions" || exit 1
mkdir -p "$root/usr/share/lintian/overrides" && cp packaging/lintian-overrides "$root/usr/share/lintian/overrides/celdrinn" &&
    chmod 644 "$root/usr/share/lintian/overrides/celdrinn" || exit 1

mkdir "$root/DEBIAN"
cat >"$root/DEBIAN/control" <<END
Package: celdrinn
Version: $version
Section: math
Priority: optional
Architecture: amd64
Maintainer: $maintainer
Installed-Size: $(find "$root/usr" -type f -printf '%s\n' | awk '{ n += int(($1 + 1023) / 1024) } END { print n }')
Depends: libc6 (>= 2.34)
Suggests: depqbf, cadical, minisat, berkeley-abc
Description: proved preprocessor for quantified Boolean formulas
 Celdrinn makes a formula in QDIMACS simpler before a solver gets it, and writes
 a QRAT log of every change, which it can check too. It carries a solver's
 Skolem and Herbrand functions back over the log to those of the input.
 .
 It is proved correct, from the bytes it reads to the bytes it writes.
END
# so that programs find the shared library, and packages of such programs name this one
if [ -f "$root/usr/lib/libceldrinn.so.1" ]; then
    echo "activate-noawait ldconfig" >"$root/DEBIAN/triggers"
    echo "libceldrinn 1 celdrinn (>= ${version%-*})" >"$root/DEBIAN/shlibs"
fi
(cd "$root" && find usr -type f -print0 | LC_ALL=C sort -z | xargs -0 md5sum >DEBIAN/md5sums) || exit 1
find "$root" -exec touch -h -d "@$SOURCE_DATE_EPOCH" {} +
dpkg-deb --root-owner-group -Zxz --build "$root" "$to/celdrinn_${version}_amd64.deb" >/dev/null || exit 1
echo "$to/celdrinn_${version}_amd64.deb"
