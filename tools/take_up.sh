#!/usr/bin/env bash
# Puts the unfinished work in the place of the landed files: tools/take_up.sh, in a checkout of the commit in the first line of docs/DESIGN-PASS.md with nothing uncommitted; later code it does not fit. docs/PORT.md says what it changes.
set -euo pipefail
cd "$(dirname "$0")/.."
[ -z "$(git status --porcelain)" ] || { echo "commit first" >&2; exit 1; }
mapfile -t files < <(cd unfinished && find crates docs ci -type f)
xargs -d '\n' git rm -q <unfinished/removed.txt
for file in "${files[@]}"; do
    to=${file%.txt}
    case $to in
    ci/*) to=.$to ;;
    docs/README.md) to=README.md ;;
    esac
    mkdir -p "$(dirname "$to")"
    mv "unfinished/$file" "$to"
done
mv unfinished/crates.listed.txt crates.txt
rm unfinished/removed.txt
find unfinished -depth -type d -empty -delete
