#!/bin/sh
# Tests by the programs that runs go on: of each query, its items are cut after each of the first lines. The answers before a cut and
# those of a run that was resumed there are the answers to all, and the snapshot of what went on, line by line or at once, is that of
# a run over all, byte by byte.
here=$(readlink -f -- "$0") || exit 1
here=${here%/tests/*}
# shellcheck source=/dev/null
. "$here/tests/shared"
# shellcheck source=/dev/null
. "$here/.ci/shared"

room=$(mktemp -d) || exit 1
trap 'rm -rf -- "$room"' EXIT
trap 'exit 1' HUP INT TERM
cd "$room" || exit 1

# How many lines of the items are taken.
lines=8

# The snapshot in what advance wrote, after the line with its length.
snapshot_in() {
    size=$(LC_ALL=C awk '/^snapshot [0-9]+$/ { print $2; exit }' "$1")
    tail -c "${size:-0}" "$1"
}

# The items in the file whole are cut after the first $2 lines, for the query $1.
goes_on() {
    head -n "$2" whole >before
    tail -n "+$(($2 + 1))" whole >after
    "$run" run "$1" before >found
    "$save" save "$1" before >saved
    cmp saved kept || return 1
    "$save" resume saved after >rest
    cat rest >>found
    cmp answers found || return 1
    "$save" advance saved after >advanced
    { cat rest; echo "snapshot $(($(wc -c <last)))"; cat last; } | cmp - advanced || return 1
    head -n 1 after >next
    "$save" advance kept next >advanced
    snapshot_in advanced >kept
}

# So it is for the query $1 and each cut of the first lines of the items $2.
goes_on_at_each() {
    : >none
    head -n "$lines" "$2" >whole
    "$run" run "$1" whole >answers
    "$save" save "$1" whole >last
    "$save" save "$1" none >kept
    at=0
    while [ "$at" -le "$(wc -l <whole)" ]; do
        goes_on "$1" "$at" || { echo "cut after $at lines"; return 1; }
        at=$((at + 1))
    done
}

# shellcheck disable=SC2154  # .ci/shared has $program
find_program sqre && run=$program && find_program snapshot && save=$program || exit 1
count=0
# All examples, and all queries that are rewritten.
set -- "$here"/examples/*/query.sqre "$here"/crates/cases_rewritten/data/*/query.sqre
for query in "$@"; do
    folder=${query%/*}
    items=$folder/items.csv
    [ -e "$items" ] || items=$folder/readings.csv
    [ "$("$run" check "$query")" = ok ] || continue
    count=$((count + 1))
    holds "${folder##*/} goes on" goes_on_at_each "$query" "$items"
done
holds 'there are at least a hundred queries' [ "$count" -ge 100 ]
tell
