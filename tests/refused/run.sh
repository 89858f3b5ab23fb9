#!/bin/sh
# Programs that must not compile: each edit here is applied to a copy of crates/theory, and the
# compiler must refuse it by the named error. (`rt must-fail` takes only edits that reach the prover.)
cd "$(dirname "$0")/../.." || exit 2
bad=0
for e in tests/refused/*.edit; do
    d=$(mktemp -d) && mkdir "$d/crates" && cp -r crates/theory "$d/crates/theory" && echo theory: >"$d/crates.txt"
    f=$(sed -n 's/^file: //p' "$e")
    OLD=$(sed -n 's/^old: //p' "$e") NEW=$(sed -n 's/^new: //p' "$e") awk '
        { text = text $0 "\n" }
        END {
            old = ENVIRON["OLD"]
            at = index(text, old)
            if (!at) exit 3
            printf "%s%s%s", substr(text, 1, at - 1), ENVIRON["NEW"], substr(text, at + length(old))
        }' "crates/theory/$f" >"$d/crates/theory/$f" || { echo "$e: its old text is not in $f"; bad=1; }
    w=$(sed -n 's/^error: //p' "$e")
    if (cd "$d/crates/theory" && rt check) >"$d/log" 2>&1; then
        echo "$e: NOT REFUSED"
        bad=1
    elif grep -aq "error\[$w\]" "$d/log"; then
        echo "$e: refused by $w"
    else
        echo "$e: NOT REFUSED by $w"
        tail -n 3 "$d/log"
        bad=1
    fi
    rm -rf "$d"
done
exit $bad
