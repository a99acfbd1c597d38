#!/bin/sh
# Tests what why writes of the examples: a word with two readings as it is in readings.txt, and else what check writes; and that
# docs/LANGUAGE.md shows the same words.
here=$(readlink -f -- "$0") || exit 1
here=${here%/tests/*}
# shellcheck source=/dev/null
. "$here/tests/shared"

# What is stored for the example $1.
stored() {
    sed -n "s/^$1: //p" "$here/tests/readings.txt" | tr / '\n'
}

# What the command $1 writes of the example $2, and its status.
written() {
    "$here/sqre" "$1" "$2/query.sqre" 2>/dev/null
    echo "status $?"
}

# What docs/LANGUAGE.md shows side by side, in the columns $1 of its lines.
shown() {
    sed -n '/^    refused choice .* refused split /,/^$/p' "$here/docs/LANGUAGE.md" | cut -c "$1" | sed 's/ *$//' | grep .
}

cd "$here/crates/examples/data" || exit 1
for name in */; do
    name=${name%/}
    wanted=$(stored "$name")
    if [ -n "$wanted" ]; then
        wanted="$wanted
status 1"
    else
        wanted=$(written check "$name")
    fi
    same "why of $name" "$wanted" "$(written why "$name")"
done
same 'refused_choice in docs/LANGUAGE.md' "$(stored refused_choice)" "$(shown 5-30)"
same 'refused_split in docs/LANGUAGE.md' "$(stored refused_split)" "$(shown 32-57)"
same 'refused_batches in docs/LANGUAGE.md' "$(stored refused_batches)" "$(shown 58-)"
tell
