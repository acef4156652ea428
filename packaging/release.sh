#!/bin/sh
# Makes a release in a folder (./release, if nothing is said): the archive, the Debian package, what has changed, and SHA256SUMS. All is made twice,
# once from here and once in another folder from the archive itself, and both are the same bytes. The program is the one in dist/, which
# bench/release.sh makes. `packaging/version.sh --set X.Y.Z` gives a version to what is under "Unreleased".
# Usage: packaging/release.sh [FOLDER]
set -u
mkdir -p "${1:-release}" && to=$(cd "${1:-release}" && pwd) || exit 1
cd "$(dirname "$0")/.." || exit 1
stop() { echo "release: $*" >&2 && exit 1; }

version=$(packaging/version.sh) || exit 1
packaging/words.sh --check || stop "packaging/words.sh makes the completions anew"
packaging/man.sh --check || stop "packaging/man.sh makes the manual pages anew"
packaging/pictures.sh --check || stop "packaging/pictures.sh makes the pictures anew"
if [ -x bench/sources.sh ] && [ "$(bench/sources.sh)" != "$(cat dist/SOURCES)" ]; then
    stop "the programs in dist/ were built from other sources; bench/release.sh builds them anew"
fi
! grep -q '^## Unreleased' CHANGELOG.md || echo "note: CHANGELOG.md has changes without a version; packaging/version.sh --set gives them one"

work=$(mktemp -d) || exit 1
trap 'rm -rf "$work"' EXIT
trap 'exit 130' INT
trap 'exit 143' TERM
mkdir "$work/first" "$work/second" || exit 1
packaging/tarball.sh "$work/first" >/dev/null && packaging/deb.sh "$work/first" >/dev/null || exit 1
(
    umask 077
    TZ=Asia/Tokyo
    export TZ
    unset SOURCE_DATE_EPOCH
    cd "$work" && tar -xzf first/*.tar.gz && cd "celdrinn-$version-x86_64-linux" || exit 1
    packaging/tarball.sh "$work/second" >/dev/null && packaging/deb.sh "$work/second" >/dev/null
) || stop "the archive does not make itself"
diff -r "$work/first" "$work/second" >"$work/diff" || stop "two builds differ: $(head -n 1 "$work/diff")"

# the first section with this version
awk -v version="$version" '/^## / { shown = ($2 == version) } shown' CHANGELOG.md >"$work/first/CHANGES-$version.md"
(cd "$work/first" && LC_ALL=C sha256sum ./* | sed 's# \./# #' >"$work/SHA256SUMS") || exit 1
cp "$work/first/"* "$work/SHA256SUMS" "$to/" || exit 1
(cd "$to" && sha256sum -c --quiet SHA256SUMS) || exit 1
if command -v lintian >/dev/null; then
    lintian --fail-on error,warning --allow-root "$to/celdrinn_$version-1_amd64.deb" 2>/dev/null || stop "lintian has something to say"
fi
for file in "$work/first/"* SHA256SUMS; do echo "$to/${file##*/}"; done
