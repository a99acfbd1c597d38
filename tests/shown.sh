#!/bin/sh
# Tests what pages show of lines with their answers: after each query of an example stand its lines, as beside writes them, or in the
# tutorial with blanks in place of the tab; and a command that shows lines is followed by what it writes. Queries are accepted.
here=$(readlink -f -- "$0") || exit 1
here=${here%/tests/*}
# shellcheck source=/dev/null
. "$here/tests/shared"

room=$(mktemp -d) || exit 1
trap 'rm -rf -- "$room"' EXIT
trap 'exit 1' HUP INT TERM
XDG_CACHE_HOME=$room/cache
export XDG_CACHE_HOME
cd "$room" || exit 1
for name in sqre examples templates; do
    ln -s "$here/$name" "$name"
done

# The sum of the query of each example, as a page shows it, and its folder.
sum_examples() {
    for query in examples/*/query.sqre templates/examples/*/query.sqre; do
        echo "$(sed 's|"../../|"templates/|' "$query" | sha256sum) ${query%/*}"
    done
}

# The blocks of lines that a page shows, each in a file by its number.
cut_page() {
    rm -f -- shown*
    awk '
        /^    / {
            if (!is_text) count++
            is_text = 1
            print substr($0, 5) >("shown" count)
            next
        }
        { is_text = 0 }' "$here/docs/$1"
}

# The folder of the example whose query is the block $1.
example_of() {
    sum=$(sha256sum <"$1")
    sed -n "s/^$sum //p" sums
}

# The lines of the example $1 with their answers.
beside() {
    items=$1/readings.csv
    [ -e "$items" ] || items=$1/items.csv
    ./sqre beside "$1/query.sqre" "$items" 2>&1
}

# The same as the tutorial shows them: without the header and empty lines.
squeezed() {
    beside "$1" | awk -F '\t' 'NF > 1' | tr '\t' ' ' | tr -s ' '
}

# The examples of the page $1, of which there are $2, are shown as $3 writes their lines.
shows_examples() {
    cut_page "$1"
    number=1
    found=0
    while [ -e "shown$number" ]; do
        example=$(example_of "shown$number")
        number=$((number + 1))
        [ -n "$example" ] || continue
        found=$((found + 1))
        case $3 in
            beside) same "$example in docs/$1" "$(beside "$example")" "$(cat "shown$number")" ;;
            squeezed) same "$example in docs/$1" "$(squeezed "$example")" "$(tr -s ' ' <"shown$number")" ;;
        esac
    done
    same "the examples of docs/$1" "$2" "$found"
}

# The commands that the page $1 shows, a line each, write what stands after them.
shows_commands() {
    cut_page "$1"
    number=1
    while [ -e "shown$number" ]; do
        if grep -q '^\./sqre \(beside\|check\|dead\|last\|view\) ' "shown$number"; then
            same "docs/$1: $(cat "shown$number")" "$(sh "shown$number" 2>&1 </dev/null)" "$(cat "shown$((number + 1))")"
        fi
        number=$((number + 1))
    done
}

# Each query that the page $1 shows is accepted, in whichever example it is.
shows_queries() {
    cut_page "$1"
    for block in shown*; do
        ! grep -q '^main(' "$block" || same "a query of docs/$1" 'ok' "$(./sqre check "$block" 2>/dev/null)"
    done
}

sum_examples >sums
shows_examples LANGUAGE.md 8 beside
shows_commands LANGUAGE.md
shows_examples TIME.md 4 beside
shows_queries TIME.md
shows_examples TUTORIAL.md 19 squeezed
tell
