#!/bin/sh
# Tests that ./sqre rewrites each query that docs/LANGUAGE.md shows before its rewritten text to this text, and the text to itself.
here=$(readlink -f -- "$0") || exit 1
here=${here%/tests/*}
# shellcheck source=/dev/null
. "$here/tests/shared"

room=$(mktemp -d) || exit 1
trap 'rm -rf -- "$room"' EXIT
trap 'exit 1' HUP INT TERM
cd "$room" || exit 1

# A file for each text that the section shows, by its number: a query, and then its rewritten text.
cut_shown() {
    awk '
        /^## / { is_inside = $0 == "## What does not change an answer" }
        !is_inside { next }
        /^    / {
            if (!is_text) count++
            is_text = 1
            print substr($0, 5) >("text" count)
            next
        }
        { is_text = 0 }' "$here/docs/LANGUAGE.md"
}

rewritten() {
    "$here/sqre" rewrite "$1" 2>&1
    echo "status $?"
}

cut_shown
holds 'docs/LANGUAGE.md shows a query' [ -e text1 ]
at=1
while [ -e "text$at" ]; do
    query=text$at
    text=text$((at + 1))
    wanted="$(cat "$text")
status 0"
    same "the rewritten text of the query $(sed -n '$p' "$query")" "$wanted" "$(rewritten "$query")"
    same "the rewritten text of that of the query $(sed -n '$p' "$query")" "$wanted" "$(rewritten "$text")"
    at=$((at + 2))
done
tell
