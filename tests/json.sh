#!/bin/sh
# Tests what ./sqre check --json writes of queries, and that it is JSON where python3 is there to read it.
here=$(readlink -f -- "$0") || exit 1
here=${here%/tests/*}
# shellcheck source=/dev/null
. "$here/tests/shared"

room=$(mktemp -d) || exit 1
trap 'rm -rf -- "$room"' EXIT
trap 'exit 1' HUP INT TERM
cd "$room" || exit 1
printf '%s\n' 'stream(plain, col(pulses, int))' 'main(iter(atom(any, pulses), 0, add(x, y)))' >query
sed 's/any, pulses/any, pulse/' query >refused
cp refused 'a "name" with \ in it'
name='a "name" with \ in it'
rest='"line": 2, "column": 11, "length": 16, "rule": "name", "sentence": "A name is declared twice or stands twice in a key, or is not known where it stands.", "help": ["An atom'\''s names are those in col; apply has x, and split, iter and combine x and y.", "These names are columns of the stream: one is not declared as it is spelled here.", "Not known here: pulse"], "also": []}]'

# What the words write, and their status.
written() {
    "$here/sqre" "$@" 2>errors
    echo "status $?"
}

same 'an accepted query' '[]
status 0' "$(written check --json query)"
same 'a refused query' "[{\"file\": \"refused\", $rest
status 1" "$(written check --json refused)"
same 'nothing else is said of it' '' "$(cat errors)"
same 'a query from standard input' "[{\"file\": \"-\", $rest
status 1" "$(written check --json - <refused)"
same 'a name with quotes' "[{\"file\": \"a \\\"name\\\" with \\\\ in it\", $rest
status 1" "$(written check --json "$name")"
same 'a query that is not there' 'status 3' "$(written check --json nothing)"
has 'a query that is not there: the sentence' 'the query nothing, which is not there, could not be read' "$(cat errors)"
same 'a folder' 'status 3' "$(written check --json .)"
has 'a second place' '"also": [{"line": 5, "column": 26, "length": 7, "sentence": "the let is used here, inside of another query"}]}]
status 1' "$(written check --json "$here/crates/explain/data/name_let_value.sqre")"
has 'the end of a text' '"line": 3, "column": 1, "length": 0, "rule": "term"' "$(written check --json "$here/crates/explain/data/term_end.sqre")"
if command -v python3 >/dev/null; then
    for query in "$here"/crates/explain/data/*.sqre "$name"; do
        "$here/sqre" check --json "$query" >list
        holds "JSON of $query" python3 -m json.tool list /dev/null
    done
else
    echo 'not tested: that it is JSON, since python3 is not here'
fi
tell
