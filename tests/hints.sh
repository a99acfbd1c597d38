#!/bin/sh
# Tests what ./sqre says of calls that go well: what each accepted example may surprise its writer with, as it is in hints.txt, and that this
# is so over its items; after which line of some items a query has no value any more; why lines are skipped; and what slots are in bytes.
here=$(readlink -f -- "$0") || exit 1
here=${here%/tests/*}
# shellcheck source=/dev/null
. "$here/tests/shared"

room=$(mktemp -d) || exit 1
trap 'rm -rf -- "$room"' EXIT
trap 'exit 1' HUP INT TERM

sqre() {
    "$here/sqre" "$@" 2>"$room/errors"
}

# What the words write, and their status.
told() {
    sqre "$@"
    echo "status $?"
}

# What the words say on standard error.
said() {
    "$here/sqre" "$@" 2>"$room/said_of_it" >/dev/null
    cat "$room/said_of_it"
}

# The words write $2, and say $3.
says() {
    test=$1
    written=$2
    sentence=$3
    shift 3
    same "$test" "$written
status 0" "$(told "$@")"
    same "$test: what is said" "$sentence" "$(cat "$room/errors")"
}

# The lines that are stored of the example $1.
stored() {
    awk -v name="$1" '
        /^== / { is_it = $2 == name; next }
        is_it' "$here/tests/hints.txt"
}

# The lines that are shown of a query after which it has no value, as a stream of its own: $room/ending.
write_ending() {
    {
        ! sqre rewrite query.sqre | grep -q '^stream(header' || echo 'header'
        sed -n '/^No further items/,/^[^ N]/s/^    //p' "$room/hints"
    } >"$room/ending"
}

# After the ending that is shown no item leads to a value, and after fewer lines some still does.
test_ending() {
    write_ending
    lines=$(($(wc -l <"$room/ending")))
    same "the ending of $1" "$lines:$(tail -n 1 "$room/ending")" "$(sqre dead query.sqre "$room/ending")"
    sed '$d' "$room/ending" >"$room/shorter"
    same "less than the ending of $1" 'alive' "$(sqre dead query.sqre "$room/shorter")"
    tail -n +2 "$items" | cat "$room/ending" - >"$room/longer"
    same "after the ending of $1" '' "$(sqre --quiet run query.sqre "$room/longer" | tail -n +"$lines" | grep -v '^undefined$\|^skipped ')"
}

# From the line on that dead names the items have no value, and before it some could still come; and run says so.
test_dead() {
    line=$(sqre dead query.sqre "$items")
    number=${line%%:*}
    said run query.sqre "$items" >"$room/said"
    if [ "$line" = alive ]; then
        same "run of $1 says nothing" '' "$(cat "$room/said")"
        return
    fi
    same "the line of $1" "$line" "$number:$(sed -n "$number{s/\r\$//;p}" "$items")"
    head -n $((number - 1)) "$items" >"$room/shorter"
    same "before the line of $1" 'alive' "$(sqre dead query.sqre "$room/shorter")"
    same "after the line of $1" '' "$(sqre --quiet run query.sqre "$items" | tail -n +$(($(sqre --quiet run query.sqre "$room/shorter" | wc -l) + 2)) |
        grep -v '^undefined$\|^skipped ')"
    case $(sqre --quiet last query.sqre "$items") in
        undefined) same "run of $1 says so" "sqre: after line $number of $items no further items lead to a value: ${line#*:}" "$(cat "$room/said")" ;;
        *) same "run of $1 has a value at last" '' "$(cat "$room/said")" ;;
    esac
}

# The hints of the example in the folder $1.
test_example() {
    cd "$here/$1" || exit 1
    items=readings.csv
    [ -e "$items" ] || items=items.csv
    said check query.sqre | grep -v '^sqre: ' >"$room/hints"
    same "hints of $1" "$(stored "$1")" "$(cat "$room/hints")"
    ! grep -q '^No further items' "$room/hints" || test_ending "$1"
    ! grep -q '^After all items' "$room/hints" || same "$1 has no ending" 'alive' "$(sqre dead query.sqre "$items")"
    test_dead "$1"
}

test_examples() {
    cd "$here" || exit 1
    for name in examples/* templates/examples/*; do
        case $name in
            examples/refused*) ;;
            *) test_example "$name" ;;
        esac
    done
    same 'all that is stored is of an example' '' \
        "$(sed -n 's/^== //p' "$here/tests/hints.txt" | while read -r name; do [ -d "$here/$name" ] || echo "$name"; done)"
}

make_files() {
    cd "$room" || exit 1
    printf '%s\n' 'stream(header, col(room, text), col(celsius, fixed(1)))' 'main(iter(atom(ge(celsius, 0), celsius), 0, add(x, y)))' >query
    printf '%s\n' 'room,celsius' 'hall,19.5' '' 'lab,-0.5' 'lab,3' >items
    dead='sqre: after line 4 of items no further items lead to a value: lab,-0.5'
}

# What a run over files says of its answers, wherever these go.
test_runs() {
    answers='195
undefined
undefined'
    says 'a run without values' "$answers" "$dead" run query items
    sqre run query items >answers
    same 'a run without values into a file' "$answers" "$(cat answers)"
    same 'a run without values into a file: what is said' "$dead" "$(cat errors)"
    sqre run query items >>answers
    same 'a run at the end of a file' "$dead" "$(cat errors)"
    says 'a quiet run' "$answers" '' run --quiet query items
    says 'a quiet run, the word first' "$answers" '' --quiet run query items
    says 'items of standard input' "$answers" '' run query - <items
    says 'a query of standard input' "$answers" '' run - items <query
    says 'slow' "$answers" '' slow query items
    { cat items && yes 'lab,n/a' | head -n 3; } >damaged
    same 'lines that are skipped come last' "$(echo "$dead" | sed 's/items/damaged/')" "$(said run query damaged)"
    { cat items && yes 'lab,7' | head -n 20000; } >long
    same 'many lines' "$(echo "$dead" | sed 's/items/long/')" "$(said run query long)"
    { yes 'lab,7' | head -n 20000 && echo 'lab,-1'; } >late
    sqre run query late >answers
    same 'the last of many lines, into a file' 'sqre: after line 20001 of late no further items lead to a value: lab,-1' "$(cat errors)"
    { echo 'room,celsius' && printf '\377\033[1m%0200d,-1\n' 0; } >bytes
    same 'bytes that are not shown' "sqre: after line 2 of bytes no further items lead to a value: ??[1m$(printf '%093d' 0)" "$(said run query bytes)"
    printf '%s\n' 'stream(plain, col(a, int))' 'main(split(atom(any, a), atom(any, a), y))' >pair
    printf '%s\n' 1 2 >two
    same 'a value at last' '' "$(said run pair two)"
    echo 3 >>two
    same 'no value after it' 'sqre: after line 2 of two no further items lead to a value: 2' "$(said run pair two)"
    printf '%s\n' 'stream(plain, col(a, int))' 'main(eps(5))' >none
    same 'no value at all' 'sqre: no items lead to a value of this query' "$(said run none two)"
    printf '%s\n' 'def(positive(E), iter(atom(ge(E, 0), E), 0, add(x, y)))' "$(head -n 1 query)" 'main(positive(celsius))' >templates
    says 'templates' "$answers" "$dead" run templates items
    says 'dead of templates' '4:lab,-0.5' '' dead templates items
}

test_dead_words() {
    says 'dead' '4:lab,-0.5' '' dead query items
    says 'dead of standard input' '4:lab,-0.5' '' dead query - <items
    says 'dead before any item' '0:' '' dead none two
    says 'dead of no items' 'alive' '' dead query /dev/null
    same 'dead of a query that is refused' "$(told --quiet run refused items)" "$(told dead refused items)"
    has 'dead of a query that is refused: why' 'Not known here: degrees' "$(cat errors)"
    same 'dead of a query that is not there' 'status 3' "$(told dead nothing items)"
    has 'dead of a query that is not there: the sentence' 'the query nothing, which is not there, could not be read' "$(cat errors)"
    same 'dead of items that are not there' 'status 4' "$(told dead query nothing)"
    has 'dead of items that are not there: the sentence' 'could not be read to their end; nothing was written' "$(cat errors)"
    same 'dead without items' 'status 2' "$(told dead query)"
    sqre dead query items >/dev/full
    same 'dead to a full disk' 5 $?
}

# What check says of the file $2 is $3.
test_check() {
    same "check of $1" "$3" "$(said check "$2" | grep -v '^sqre: ')"
    same "check of $1, quiet" 'ok
status 0' "$("$here/sqre" check "$2" --quiet 2>&1; echo "status $?")"
}

test_hints() {
    test_check 'a query that ends' query 'No further items lead to a value after these:
    other,-0.1'
    test_check 'templates' templates 'No further items lead to a value after these:
    other,-0.1'
    printf '%s\n' 'stream(plain, col(a, int), col(b, text))' '# how many' 'main(collect(b, any, star(item(any)), iter(atom(any, 1), 0, add(x, y))))' >keyless
    test_check 'no keys' keyless 'After all items further ones fit the rate of this query.
No key comes to this table, since each item is of every key:
    main(collect(b, any, star(item(any)), iter(atom(any, 1), 0, add(x, y))))
         ^^^^^^^^^^^^^^^^^^^^^^^^^^^^^^^^^^^^^^^^^^^^^^^^^^^^^^^^^^^^^^^^^^'
    same 'check of standard input' '' "$(said check - <query)"
    same 'JSON' '[]' "$("$here/sqre" check --json query 2>&1)"
}

# Where every line was skipped, the cause is the fields, or else the first one is named.
test_skipped() {
    printf '%s\n' 'room;celsius' 'hall;19.5' 'lab;20' >semicolons
    same 'semicolons' 'sqre: every line of semicolons was skipped, since semicolons stand between its fields, and not commas' "$(said run query semicolons)"
    tr ';' '\t' <semicolons >separated
    same 'tabs' 'sqre: every line of separated was skipped, since tabs stand between its fields, and not commas' "$(said run query separated)"
    sed 's/\([^;]*\);\([^;]*\)/\2,\1/' semicolons >swapped
    same 'columns in another order' 'sqre: every line of swapped was skipped, since its header has the columns celsius,room, and the query room,celsius' \
        "$(said run query swapped)"
    tr ';' ',' <semicolons | sed '2,$s/$/ C/' >units
    same 'another cause' 'sqre: every line of units was skipped, the first one as number 2' "$(said run query units)"
    same 'another cause, into a file' 'sqre: every line of units was skipped, the first one as number 2' "$(sqre run query units >answers; cat errors)"
    same 'another cause, quiet' '' "$(said run query units --quiet)"
    { cat units && echo 'hall,19.5' && tail -n +2 units; } >few
    same 'one line is an item' '' "$(said run query few)"
    same 'a header alone' '' "$(head -n 1 semicolons >header; said run query header)"
    { cat units && yes 'lab,x' | head -n 20000 && echo 'hall,19.5'; } >late
    same 'the last of many lines is an item' '' "$(said run query late)"
}

test_bytes() {
    printf '%s\n' "$(head -n 1 query)" '# collect(room, ..)' 'main(iter(atom(any, 1), 0, add(x, y)))' >counted
    says 'bound' 'places 1 slots 6' 'sqre: a run keeps at most 6 slots, which take about 600 bytes, however many items there are' bound counted
    says 'bound, quiet' 'places 1 slots 6' '' bound --quiet counted
    says 'bound of standard input' 'places 1 slots 6' '' bound - <counted
    same 'check' 'sqre: a run keeps at most 6 slots, which take about 600 bytes, however many items there are' "$(said check counted | grep '^sqre: a run')"
    printf '%s\n' "$(head -n 1 query)" 'main(collect(room, not(any), star(item(any)), iter(atom(any, 1), 0, add(x, y))))' >by_key
    says 'bound of keys' 'places 2 slots 18' 'sqre: a run keeps at most 18 slots, which take about 2 kB, and as much again for each key' bound by_key
    printf '%s\n' "def(by_room(F), collect(room, not(any), star(item(any)), F))" "$(head -n 1 query)" 'main(by_room(iter(atom(any, 1), 0, add(x, y))))' >by_template
    says 'bound of keys by a template' 'places 2 slots 18' 'sqre: a run keeps at most 18 slots, which take about 2 kB, and as much again for each key' \
        bound by_template
    same 'bound of a query that is refused says no bytes' '' "$(said bound refused | grep '^sqre: a run')"
}

make_files
test_skipped
sed 's/ge(celsius/ge(degrees/' query >refused
test_bytes
test_runs
test_dead_words
test_hints
test_examples
tell
