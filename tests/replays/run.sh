#!/bin/sh
# What `inkstep replay` prints for the books of histories, compared with the outputs stored here: with --state, and
# without it, where the indented lines are left out. (The toolchain runs a program once, and there it asks.) The program
# is the one that `rt ci` or `rt run` left.
cd "$(dirname "$0")/../../crates/inkstep/data" || exit 2
bad=0
for stored in ../../../tests/replays/*.out; do
    book=$(basename "$stored" .out).book
    ../out/inkstep replay --state "$book" | diff "$stored" - || bad=1
    states=$(mktemp) && grep -v '^ ' "$stored" >"$states"
    ../out/inkstep replay "$book" | diff "$states" - || bad=1
    rm -f "$states"
done
[ "$bad" -eq 0 ] && echo "replays: as stored"
exit $bad
