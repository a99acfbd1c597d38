#!/bin/sh
# Tests the views of ./sqre: that the rows of each example have its fields and the answers of a run, as JSON, CSV, TSV and columns, and that
# other programs read them; bytes of all kinds; each option and each way to end; and that the row of a line stands there within a second.
here=$(readlink -f -- "$0") || exit 1
here=${here%/tests/*}
# shellcheck source=/dev/null
. "$here/tests/shared"

room=$(mktemp -d) || exit 1
begun=
# shellcheck disable=SC2317  # a trap calls it
clean() {
    [ -z "$begun" ] || kill -s TERM "$begun" 2>/dev/null
    rm -rf -- "$room"
}
trap clean EXIT
trap 'exit 1' HUP INT TERM

sqre() {
    "$here/sqre" "$@" 2>"$room/errors"
}

# What the words write, and their status.
told() {
    sqre "$@"
    echo "status $?"
}

# What view.py counts over these folders.
compare() {
    python3 "$here/tests/view.py" "$here/sqre" "$@" >"$room/told" 2>&1
    sed '$d' "$room/told"
    counts=$(tail -n 1 "$room/told" | sed -n 's/^\([0-9]*\) passed, \([0-9]*\) failed$/\1 \2/p')
    [ -n "$counts" ] || tail -n 1 "$room/told"
    counts=${counts:-0 1}
    passed=$((passed + ${counts% *}))
    failed=$((failed + ${counts#* }))
}

# Keys and texts with quotes, backslashes, control characters, characters of two to four bytes, and bytes of none; lines that are skipped
# have them, too, and one is too long.
make_bytes() {
    mkdir -p "$room/bytes"
    printf '%s\n' 'stream(plain, col(key, text), col(n, fixed(2)))' \
        'main(collect(key, not(any), star(item(any)), iter(atom(any, n), 0, add(x, y))))' >"$room/bytes/query.sqre"
    {
        printf '"say ""hi""",1\nback\\slash,-2\na\ttab,0.5\n\001\037\177,-0.05\n\377\351,5\n'
        printf 'caf\303\251,6\n\300\257,7\n\355\240\200,8\n\342\202,9\n\364\220\200\200,10\n\360\237\230\200,11\n'
        printf '"a, b",12\n\357\273\277front,13\n,14\n\\x41,15\nminus,-92233720368547758.08\n'
        printf '\377"\\ \001,x\n\r,1\na\rb,1\n"a,b\n'
        head -c 65537 /dev/zero | tr '\0' '"'
        printf '\nlast,0'
    } >"$room/bytes/readings.csv"
}

# The file $1 has a line that begins with $2 within a second.
has_soon() {
    waited=0
    until grep -q "^$2" "$1" || [ "$waited" -ge 10 ]; do
        sleep 0.1
        waited=$((waited + 1))
    done
    grep -q "^$2" "$1"
}

# Each row of the words $2 and so on stands in the output before the next line comes: two lines, and then the rows that begin with $1.
is_live() {
    row=$1
    shift
    rm -f -- "$room/pipe" "$room/rows"
    mkfifo "$room/pipe"
    sqre "$@" "$room/pipe" >"$room/rows" &
    begun=$!
    exec 7>"$room/pipe"
    echo 5,a >&7
    wait_for "$room/rows"
    for number in 6 7; do
        echo "$number,b" >&7
        holds "live: the row of $number by $*" has_soon "$room/rows" "$(echo "$row" | sed "s/N/$number/g")"
    done
    exec 7>&-
    wait "$begun"
    begun=
}

test_words() {
    cd "$room" || exit 1
    printf '%s\n' 'stream(header, col(room, text), col(celsius, fixed(1)))' \
        'main(split(iter(atom(any, 0), 0, 0), atom(any, celsius), y))' >query
    printf 'room,celsius\nhall,19.5\nlab,n/a\nlab,-0.5\n' >items
    same 'JSON' '{"room":"hall","celsius":19.5,"answer":19.5}
{"line":"lab,n/a","skipped":"number 2"}
{"room":"lab","celsius":-0.5,"answer":-0.5}
status 0' "$(told view --json query items)"
    same 'CSV, and the option last' 'room,celsius,answer
hall,19.5,19.5
"lab,n/a",,skipped number 2
lab,-0.5,-0.5
status 0' "$(told view query items --csv)"
    same 'TSV, and other decimals' 'room	celsius	answer
hall	19.5	1.95
lab,n/a		skipped number 2
lab	-0.5	-0.05
status 0' "$(told view --decimals 2 query items --tsv)"
    same 'no decimals' '{"room":"hall","celsius":19.5,"answer":195}' "$(sqre view --json query items --decimals 0 | head -n 1)"
    same 'from standard input' '{"room":"attic","celsius":31.0,"answer":31.0}
status 0' "$(printf 'room,celsius\nattic,31' | told view query --json -)"
    same 'nothing' 'status 0' "$(told view --csv query /dev/null)"
    for words in '--json --csv query items' '--xml query items' 'query items --decimals' 'query items --decimals 10' \
        'query items --decimals x' 'query' 'query items items'; do
        # shellcheck disable=SC2086  # these are words
        same "view $words" 'status 2' "$(told view $words)"
        has "view $words: the sentence" 'none of those that --help shows' "$(cat errors)"
    done
}

# In columns: on a terminal skipped lines are dimmed, into a pipe they are not.
test_columns() {
    same 'columns' 'room  celsius  answer
hall     19.5    19.5
lab,n/a  skipped number 2
lab      -0.5    -0.5' "$(sqre view query items)"
    if command -v script >/dev/null; then
        TERM=xterm NO_COLOR='' script -qec "'$here/sqre' view query items" /dev/null </dev/null | tr -d '\r' >dimmed
        same 'dimmed' "$(printf '\033[2mlab,n/a  skipped number 2\033[0m')" "$(grep skipped dimmed)"
        TERM=xterm NO_COLOR=1 script -qec "'$here/sqre' view query items" /dev/null </dev/null | tr -d '\r' >dimmed
        same 'not dimmed' "$(sqre view query items)" "$(cat dimmed)"
    else
        echo 'not tested: a view on a terminal, since script is not here'
    fi
}

test_ends() {
    sed 's/any, celsius/any, degrees/' query >refused
    same 'a query that is refused' "$(told run refused items)" "$(told view refused items)"
    has 'a query that is refused: why' 'Not known here: degrees' "$(cat errors)"
    same 'a query that is not there' 'status 3' "$(told view nothing items)"
    has 'a query that is not there: the sentence' 'the query nothing, which is not there, could not be read' "$(cat errors)"
    same 'items that are not there' 'status 4' "$(told view query nothing)"
    has 'items that are not there: the sentence' 'the items nothing, which is not there, could not be read' "$(cat errors)"
    sqre view --csv query items >/dev/full
    same 'a full disk' 5 $?
    has 'a full disk: the sentence' 'the output failed' "$(cat errors)"
    printf '%s\n' 'def(latest(E), split(iter(atom(any, 0), 0, 0), atom(any, E), y))' "$(head -n 1 query)" 'main(latest(celsius))' >templates
    same 'a query with templates' "$(told view --json query items)" "$(told view --json templates items)"
}

# check says how view shows the answers.
test_units() {
    same 'check of tenths' 'ok
status 0' "$(told check query)"
    has 'check of tenths: how they are shown' 'with 1 digit after the point' "$(cat errors)"
    told check templates >/dev/null
    has 'check of templates: how they are shown' 'with 1 digit after the point' "$(cat errors)"
    printf '%s\n' 'stream(plain, col(a, int))' 'main(atom(any, a))' >whole
    same 'check of whole numbers' 'ok
status 0' "$(told check whole)"
    same 'check of whole numbers says nothing of digits' '' "$(grep 'view shows' errors)"
    printf '%s\n' 'stream(plain, col(a, fixed(1)), col(b, fixed(2)))' 'main(atom(any, add(a, b)))' >mixed
    told check mixed >/dev/null
    has 'check of mixed units: how they are shown' 'as whole numbers' "$(cat errors)"
}

test_live() {
    printf '%s\n' 'stream(plain, col(n, int), col(text, text))' 'main(split(iter(atom(any, 0), 0, 0), atom(any, n), y))' >last
    is_live '{"n":N,"text":"b","answer":N}' view --json last
    is_live 'N,b,N$' view --csv last
    is_live 'N  b .* N$' view last
    is_live 'N,b	N$' beside last
}

test_words
test_columns
test_ends
test_units
test_live
if command -v python3 >/dev/null; then
    make_bytes
    compare "$here"/examples/*/ "$room/bytes"
    command -v jq >/dev/null || echo 'not tested: that jq reads the JSON, since jq is not here'
else
    echo 'not tested: the rows of the examples, since python3 is not here'
fi
tell
