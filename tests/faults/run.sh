#!/bin/sh
# What `inkstep` says where something is at fault, compared with `transcript`: a line of standard error begins with `!`,
# and after each command stands its exit status. The program is the one that `rt ci` or `rt run` left.
LC_ALL=C
export LC_ALL
cd "$(dirname "$0")" || exit 2
inkstep=$(cd ../.. && pwd)/crates/inkstep/out/inkstep
said=$(mktemp) && tmp=$(mktemp -d) || exit 2
trap 'rm -rf "$said" "$tmp"' EXIT

# one command: its words, what it prints, and its status
try() {
    echo "\$ inkstep $*"
    "$inkstep" "$@" >"$tmp/stdout" 2>"$tmp/stderr"
    status=$?
    cat "$tmp/stdout"
    sed 's/^/! /' "$tmp/stderr"
    echo "status $status"
}

faults() {
    for book in many_terms many_claims many_arguments own_argument argument_of_distance no_such_term large_constant; do
        try ask "$book.book"
    done
    for book in many_clauses many_literals long_clause no_such_literal claim_twice past_end; do
        try solve "$book.book"
        try replay "$book.book"
    done
    try solve steps_to_solve.book
    try solve number_missing.book
    try replay --strict ../books/learned.book
    try replay --exit-code ../books/learned.book
    try replay --state all_refused.book
    try solve --exit-code fit.book
    try solve --exit-code no_fit.book
    try solve --exit-code --allowance 1 fit.book
    try solve fit.book --allowance=2 -- no_fit.book
    try solve fit.book no_such.book
    try solve "$(printf 'no\nsuch')"
    try solve "$(printf '\377')"
    try solve --exit-code fit.book no_fit.book
    try solve --log log fit.book no_fit.book
    try solve --allowance 4294967296 fit.book
    try slove fit.book
    try solve --stat fit.book
    try replay
    try
    cp fit.book no_fit.book "$tmp" && cd "$tmp" || exit 2
    try solve --log log no_fit.book
    cat log
    try replay --strict --exit-code log
    try solve --log log fit.book
    try solve --log log no_such.book
    tail -n 1 log
    try solve --log ./fit.book fit.book
    try solve --log fit.book - <fit.book
    try solve --log no/log fit.book
    : >log.part
    try solve --log log fit.book
    rm log.part
    echo "# standard output is a file, and the log's place"
    "$inkstep" solve --log out fit.book >out
    echo "status $?"
    try solve --log /dev/full fit.book
    ls
    cmp fit.book "$OLDPWD/fit.book"
    cd "$OLDPWD" || exit 2
    echo "# standard output with no room"
    { "$inkstep" solve fit.book 2>&1 >/dev/full; echo "status $?"; } | sed 's/^inkstep/! inkstep/'
    echo "# standard output is closed"
    { "$inkstep" solve fit.book 2>&1 >&-; echo "status $?"; } | sed 's/^inkstep/! inkstep/'
}

faults 2>&1 | sed "s|$tmp|TMP|g" >"$said"
diff transcript "$said" || exit 1
echo "faults: told as stored"
