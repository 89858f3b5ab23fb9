#!/bin/sh
# What `inkstep solve` finds for the books here, compared with `verdicts`; each fit is checked by itself. Which fit it
# is, and after how many steps, is the search's choice, and may change with it. The program is the one that `rt ci` or
# `rt run` left.
LC_ALL=C
export LC_ALL
cd "$(dirname "$0")" || exit 2
found=$(mktemp) || exit 2
trap 'rm -f "$found"' EXIT
../../crates/inkstep/out/inkstep solve ./*.book >"$found" || exit 1
awk '/:$/ { sub(/^\.\//, ""); sub(/\.book:$/, ""); book = $0 }
    /^(fit|no fit|spent)/ { sub(/^fit.*/, "fit"); print book, $0 }' "$found" | diff verdicts - || exit 1
fits=$(python3 ../compare/fits.py <"$found") || exit 1
echo "solved: verdicts as stored, $fits fits checked"
