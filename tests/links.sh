#!/bin/sh
# Says which references of the pages lead nowhere: links to a file or a heading, `PAGE.md, "Heading"`, and names of files below the
# folders of this repository. What isn't in an archive (crates/, bench/, CONTRIBUTING.md) is looked for in a checkout alone.
# Usage: tests/links.sh [PAGE ..], from anywhere; without PAGE all pages
set -u
cd "$(dirname "$0")/.." || exit 1
[ $# -gt 0 ] || set -- ./*.md docs/*.md examples/*.md examples/*/*.md bench/*.md

# Whether a name is of what an archive doesn't have, and this is one.
is_left_out() {
    [ ! -f crates.txt ] || return 1
    case $1 in *crates* | *bench* | *CONTRIBUTING* | RESULTS.md) ;; *) return 1 ;; esac
}

# Each reference of a page on a line: `link TARGET`, `heading PAGE HEADING` or `file NAME`. A page is one line here, since references are broken over lines.
references() {
    tr '\n' ' ' <"$1" | tr -s ' ' | awk '
        function take(pattern) { found = match(rest, pattern) ? substr(rest, RSTART, RLENGTH) : ""; rest = substr(rest, RSTART + RLENGTH); return found != "" }
        {
            rest = $0
            while (take("\\]\\([^) ]*\\)")) if (found !~ /:\/\//) print "link", substr(found, 3, length(found) - 3)
            rest = $0
            while (take("[A-Za-z-]+[.]md(\\]?\\([^)]*\\))?, \"[^\"]*\"")) {
                page = heading = found
                sub(/[.]md.*/, ".md", page)
                sub(/^[^"]*"/, "", heading)
                print "heading", page, substr(heading, 1, length(heading) - 1)
            }
            rest = $0
            while (take("(^|[ `(])(bench|completion|crates|docs|examples|help|launcher|packaging|tests)/[A-Za-z0-9_./-]*[A-Za-z0-9_/]")) {
                sub(/^[ `(]/, "", found)
                # a name in capitals stands for any, two dots for some, and bench/out is made by scripts
                if (found ~ /[.]md$/ || (found !~ /[.][.]|[A-Z][A-Z]|^bench\/out/ && rest !~ /^(-?[*{]|[.][.])/)) print "file", found
            }
        }'
}

# The headings of a page as links name them.
slugs() { sed -n 's/^##* //p' "$1" | slug; }
slug() { tr '[:upper:]' '[:lower:]' | sed -e 's/[^a-z0-9 _-]//g' -e 's/ /-/g'; }

look() {
    page=$1
    references "$page" | while read -r kind target rest; do
        case $kind in
            link)
                file=${target%%#*}
                [ -n "$file" ] && file=${page%/*}/$file || file=$page
                is_left_out "$file" && continue
                [ -e "$file" ] || { echo "$page: there is no $target" && continue; }
                case $target in *#*) slugs "$file" | grep -qx -e "${target#*#}" || echo "$page: no heading for $target" ;; esac
                ;;
            heading)
                is_left_out "$target" && continue
                file=$(find . -name "$target" -not -path './crates/*' -not -path './dist/*' | head -n 1)
                [ -n "$file" ] || { echo "$page: there is no page $target" && continue; }
                slugs "$file" | grep -qx -e "$(printf '%s\n' "$rest" | slug)" || echo "$page: $target has no \"$rest\""
                ;;
            file)
                is_left_out "$target" && continue
                [ -e "$target" ] || echo "$page: there is no $target"
                ;;
        esac
    done
}
for page; do
    [ ! -f "$page" ] || look "$page"
done
