#!/bin/sh
# Prints the version, or says where two files disagree about it: what `celdrinn --version` prints, CHANGELOG.md, CITATION.cff and Python's module.
# With --set it gives what CHANGELOG.md has under "Unreleased" this version, and names it in the other files.
# Usage: packaging/version.sh [--set X.Y.Z]
set -u
cd "$(dirname "$0")/.." || exit 1

# Changes a file by sed.
change() {
    sed -e "$1" "$2" >"$2.new" && cat "$2.new" >"$2" && rm "$2.new" || exit 1
}
if [ "${1-}" = --set ]; then
    case ${2-} in
        *.*.*.* | *[!0-9.]* | .* | *. | *..*) echo "version: '$2' is no version as 1.2.3" >&2 && exit 64 ;;
        *.*.*) ;;
        *) echo "version: a version as 1.2.3 is wanted" >&2 && exit 64 ;;
    esac
    grep -q '^## Unreleased' CHANGELOG.md || { echo "version: CHANGELOG.md has nothing under 'Unreleased'" >&2 && exit 1; }
    change "1s/^celdrinn .*/celdrinn $2/" VERSION
    change "s/^## Unreleased/## $2 ($(date -u -d "@$(packaging/date.sh)" +%Y-%m-%d))/" CHANGELOG.md
    change "s/^version: .*/version: $2/" CITATION.cff
    change "s/^version = .*/version = \"$2\"/" packaging/python/pyproject.toml
fi
version=$(sed -n '1s/^celdrinn //p' VERSION)
changed=$(sed -n 's/^## \([0-9][0-9.]*\).*/\1/p' CHANGELOG.md | head -n 1)
cited=$(sed -n 's/^version: *"\{0,1\}\([0-9.]*\).*/\1/p' CITATION.cff)
module=$(sed -n 's/^version = "\([0-9.]*\)"$/\1/p' packaging/python/pyproject.toml)
if [ "$version" != "$changed" ] || [ "$version" != "$cited" ] || [ "$version" != "$module" ]; then
    echo "VERSION says '$version', CHANGELOG.md '$changed', CITATION.cff '$cited', pyproject.toml '$module'" >&2
    exit 1
fi
echo "$version"
