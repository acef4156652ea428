#!/bin/sh
# Prints the second that all files of a release get: SOURCE_DATE_EPOCH, or that of the last commit, or in an archive that of the archive.
set -u
cd "$(dirname "$0")/.." || exit 1
if [ -n "${SOURCE_DATE_EPOCH:-}" ]; then
    echo "$SOURCE_DATE_EPOCH"
elif [ -f packaging/date ]; then
    cat packaging/date
else
    git log -1 --format=%ct 2>/dev/null || echo 1700000000
fi
