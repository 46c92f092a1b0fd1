#!/bin/bash
# The manual pages: mandoc and groff print no warning of them, and each page of section 5 that they name exists. Prints
# 'N pages without a warning', or the warnings. A missing tool is left out, which is a failure under CI.
# usage: tools/check_pages.sh [FOLDER]
set -u
cd "$(dirname "$0")/.."
folder=${1:-man} bad=0 pages=0
for tool in mandoc man; do
    command -v $tool >/dev/null && continue
    echo "left out: $tool, which isn't there"
    [ -z "${CI:-}" ] || bad=1
done
for page in "$folder"/*.[1-8]; do
    pages=$((pages + 1))
    warnings=$(
        ! command -v mandoc >/dev/null || mandoc -Tlint -Wwarning "$page" 2>&1
        ! command -v man >/dev/null || MANWIDTH=80 LC_ALL=C.UTF-8 man --warnings -E UTF-8 -l "$page" 2>&1 >/dev/null
    )
    [ -z "$warnings" ] || { bad=1; echo "$page: $warnings"; }
    for name in $(sed -n 's/^\.Xr \(sealer[a-z-]*\) \([1-8]\).*/\1.\2/p' "$page"); do
        [ -f "$folder/$name" ] || { bad=1; echo "$page: there is no $name"; }
    done
done
[ $pages -ge 3 ] || { bad=1; echo "only $pages pages"; }
[ $bad = 0 ] && echo "$pages pages without a warning"
exit $bad
