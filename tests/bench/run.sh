#!/bin/sh
# Verdicts of `inkstep solve` for the books here, compared with the ones in `verdicts`; what the search did is replayed
# from its log, with no step refused, to the same verdict and the same fit. A book that is not named there has a verdict
# that nobody waits for. The program is the one that `rt ci` or `rt run` left.
cd "$(dirname "$0")" || exit 2
inkstep=../../crates/inkstep/out/inkstep
log=$(mktemp) && found=$(mktemp) && replayed=$(mktemp) || exit 2
trap 'rm -f "$log" "$found" "$replayed"' EXIT
bad=0
while read -r book verdict; do
    $inkstep solve --log "$log" "$book.book" >"$found"
    name=$(sed -n '1s/^fit .*/fit/;1p' "$found")
    [ "$name" = "$verdict" ] || { echo "$book: '$name', and not '$verdict'"; bad=1; }
    $inkstep replay "$log" >"$replayed"
    grep -m 1 ': refused ' "$replayed" && { echo "$book: a step of its log is refused"; bad=1; }
    steps=$(grep -c '^step ' "$log")
    [ "steps $steps" = "$(sed -n 2p "$found")" ] || { echo "$book: its log has $steps steps"; bad=1; }
    [ "$(sed -n 's/^verdict //p' "$replayed")" = "$name" ] || { echo "$book: its log has another verdict"; bad=1; }
    fit=$(sed '1,/^verdict /d' "$replayed")
    [ "$fit" = "$(sed -n '/^fit /p' "$found")" ] || { echo "$book: its log has another fit"; bad=1; }
done <verdicts
[ "$bad" -eq 0 ] && echo "bench: verdicts as stored, and their logs replayed"
exit $bad
