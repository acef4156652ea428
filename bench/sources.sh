#!/bin/sh
# The hash of the sources that the program is proved and built from: of each file's name and bytes.
#
# Usage: bench/sources.sh
cd "$(dirname "$0")/.." || exit 1
{
    printf 'crates.txt\0'
    find crates/*/src crates/*/specs crates/*/proofs -type f \( -name '*.rt' -o -name '*.antt' \) -print0 2>/dev/null
} | LC_ALL=C sort -z | xargs -0 sha256sum | sha256sum | cut -d ' ' -f 1
