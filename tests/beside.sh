#!/bin/sh
# Tests the answers beside their lines, and the last answer alone: over each example, lines of all kinds, and each way to end.
here=$(readlink -f -- "$0") || exit 1
here=${here%/tests/*}
# shellcheck source=/dev/null
. "$here/tests/shared"

room=$(mktemp -d) || exit 1
trap 'rm -rf -- "$room"' EXIT
trap 'exit 1' HUP INT TERM

sqre() {
    "$here/sqre" "$@" 2>"$room/errors"
}

# The lines of the file $1 with what a run wrote for them after a tab; the first line is a header where $2 is 1.
pasted() {
    awk -v header="$2" '
        NR == FNR { answer[FNR] = $0; next }
        { sub(/\r$/, "") }
        FNR == 1 && header || $0 == "" { print; next }
        { print $0 "\t" answer[++count] }' "$room/answers" "$1"
}

cd "$here/examples" || exit 1
for name in *; do
    [ -e "$name/readings.csv" ] || continue
    header=0
    ! grep -q '^ *stream(header' "$name/query.sqre" || header=1
    sqre run "$name/query.sqre" "$name/readings.csv" >"$room/answers" || continue
    pasted "$name/readings.csv" "$header" >"$room/wanted"
    sqre beside "$name/query.sqre" "$name/readings.csv" >"$room/beside"
    holds "$name: each line, and its answer beside it" cmp "$room/wanted" "$room/beside"
    tail -n +$((header + 1)) "$room/beside" | awk -F '\t' 'NF > 1 { print $NF }' >"$room/after"
    holds "$name: after the last tab stands what a run writes" cmp "$room/answers" "$room/after"
    sqre beside "$name/query.sqre" "$name/query.sqre" "$name/query.sqre" "$name/readings.csv" >"$room/thrice"
    tail -n +$((header + 1)) "$room/thrice" | awk -F '\t' 'NF > 1 { print $(NF - 2) "\t" $(NF - 1) "\t" $NF }' >"$room/columns"
    paste "$room/answers" "$room/answers" "$room/answers" >"$room/wanted"
    holds "$name: three columns" cmp "$room/wanted" "$room/columns"
    same "$name: the last answer" "$(grep -v '^skipped' "$room/answers" | tail -n 1)" \
        "$(sqre last "$name/query.sqre" "$name/readings.csv")"
done

# A header, an empty line, a line that is skipped, one with a CR, one with a tab of its own, one too long, and a last one without an LF.
printf '%s\n' 'stream(header, col(room, text), col(reading, int))' 'main(iter(atom(any, reading), 0, add(x, y)))' >"$room/query"
{
    printf 'room\treading\n\nhall,5\r\nhall,seven\na\tb,-2\n'
    head -c 65537 /dev/zero | tr '\0' x
    printf '\nporch,9'
} >"$room/items"
printf 'room\treading\n\nhall,5\t5\nhall,seven\tskipped number 2\na\tb,-2\t3\n\tskipped long 0\nporch,9\t12\n' >"$room/wanted"
sqre beside "$room/query" "$room/items" >"$room/beside"
holds 'lines of all kinds' cmp "$room/wanted" "$room/beside"
same 'the last answer to them' 12 "$(sqre last "$room/query" "$room/items")"

# Two queries: a column for each, in their order; the stream is read once.
printf '%s\n' 'stream(header, col(room, text), col(reading, int))' 'main(iter(atom(any, reading), 0, max(x, y)))' >"$room/second"
printf 'room\treading\n\nhall,5\t5\t5\nhall,seven\tskipped number 2\tskipped number 2\na\tb,-2\t3\t5\n\tskipped long 0\tskipped long 0\nporch,9\t12\t9\n' >"$room/wanted"
sqre beside "$room/query" "$room/second" - <"$room/items" >"$room/beside"
holds 'two queries' cmp "$room/wanted" "$room/beside"
for column in 1 2; do
    one=query
    [ "$column" = 1 ] || one=second
    sqre run "$room/$one" "$room/items" >"$room/answers"
    tail -n +2 "$room/beside" | awk -F '\t' -v column="$column" 'NF > 1 { print $(NF - 2 + column) }' >"$room/after"
    holds "column $column is what a run of its query writes" cmp "$room/answers" "$room/after"
done
set --
for _ in 1 2 3 4 5 6 7 8 9 10 11 12 13 14 15 16; do
    set -- "$@" "$room/query"
done
same 'sixteen queries' 17 "$(sqre beside "$@" "$room/items" | awk -F '\t' '$1 == "hall,5" { print NF }')"
same 'seventeen queries' 'status 2' "$(sqre beside "$@" "$room/query" "$room/items"; echo "status $?")"

# Streams that are not one: nothing is read of the items.
for other in 'stream(plain, col(room, text), col(reading, int))' 'stream(header, col(rooms, text), col(reading, int))' \
    'stream(header, col(room, text), col(reading, fixed(2)))' 'stream(header, col(reading, int), col(room, text))' \
    'stream(header, col(room, text), col(reading, int), col(more, int))' 'stream(header, col(reading, int))'; do
    printf '%s\n' "$other" 'main(iter(atom(any, reading), 0, add(x, y)))' >"$room/other"
    same "$other" 'stream 3
status 11' "$(sqre beside "$room/query" "$room/second" "$room/other" "$room/none"; echo "status $?")"
    same "$other, first" 'stream 2
status 11' "$(sqre beside "$room/other" "$room/query" "$room/second" "$room/none"; echo "status $?")"
done

# No items: the answer on no items.
same 'nothing, beside' '' "$(sqre beside "$room/query" - </dev/null)"
same 'the last answer on no items' 0 "$(sqre last "$room/query" - </dev/null)"
printf '%s\n' 'stream(plain, col(a, int))' 'main(atom(any, a))' >"$room/one"
same 'the last answer on no items, where there is none' undefined "$(sqre last "$room/one" - </dev/null)"
same 'items that are all skipped' undefined "$(printf 'x\n' | sqre last "$room/one" -)"

# Each way to end.
for command in beside last; do
    printf 'main(\n' >"$room/broken"
    same "$command: a query that is refused" "$(sqre run "$room/broken" "$room/items"; echo "status $?")" \
        "$(sqre "$command" "$room/broken" "$room/items"; echo "status $?")"
    same "$command: a query that is not there" 'status 3' "$(sqre "$command" "$room/none" "$room/items"; echo "status $?")"
    same "$command: items that are not there" 'status 4' "$(sqre "$command" "$room/query" "$room/none"; echo "status $?")"
    same "$command: too few words" 'status 2' "$(sqre "$command" "$room/query"; echo "status $?")"
    same "$command: no words" 'status 2' "$(sqre "$command"; echo "status $?")"
    same "$command: a full disk" 'status 5' "$(sqre "$command" "$room/query" "$room/items" >/dev/full; echo "status $?")"
done
same 'the second query is refused' "$(sqre run "$room/broken" "$room/items"; echo "status $?")" \
    "$(sqre beside "$room/query" "$room/broken" "$room/none" "$room/items"; echo "status $?")"
same 'the second query is not there' 'status 3' "$(sqre beside "$room/query" "$room/none" "$room/broken" "$room/items"; echo "status $?")"
same 'last of two queries' 'status 2' "$(sqre last "$room/query" "$room/second" "$room/items"; echo "status $?")"
tell
