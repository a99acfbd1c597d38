#!/bin/sh
# Tests that the examples whose main query is a collect are answered by shards: after each line that has a table, the entries of the
# shards' tables are those of the whole, the mask says when there is one, and a line that a run skips has no shard.
here=$(readlink -f -- "$0") || exit 1
here=${here%/tests/*}
# shellcheck source=/dev/null
. "$here/tests/shared"

room=$(mktemp -d) || exit 1
trap 'rm -rf -- "$room"' EXIT
trap 'exit 1' HUP INT TERM

# The examples, with how many shards their keys are divided among.
examples='hits 3
minutes 2
minutes_taken 5
positions 2
quotes 1
users 4
venues 3'

sqre() {
    "$here/sqre" "$@" 2>"$room/errors"
}

# The lines of the file $1 that go to the shard $2 by the routes beside them; all shards have the header.
lines_of() {
    awk -v shard="$2" -v header="$3" '
        NR == FNR { route[FNR] = $0; next }
        FNR == 1 && header || route[FNR] == "all" || route[FNR] == shard' "$room/routes" "$1"
}

# The lines of the mask, which has all items.
lines_of_all() {
    awk -v header="$2" '
        NR == FNR { route[FNR] = $0; next }
        FNR == 1 && header || route[FNR] !~ /^(-|skipped)/' "$room/routes" "$1"
}

# The entries of the last table in what was answered, one a line, in one order.
entries() {
    tail -n 1 | sed 's/^{//; s/}$//; s/,"/\n"/g' | grep . | LC_ALL=C sort
}

# The last answer to the first lines of the example $1, as they stand in $room/items, is that of its $2 shards.
is_divided() {
    sqre route "$1/query.sqre" "$2" "$room/items" >"$room/routes"
    same "$1: a line for each line" "$(wc -l <"$room/items")" "$(wc -l <"$room/routes")"
    sqre run "$1/query.sqre" "$room/items" >"$room/answers"
    same "$1: skipped lines" "$(grep '^skipped' "$room/answers")" "$(grep '^skipped' "$room/routes")"
    lines_of_all "$room/items" "$header" >"$room/mask.items"
    last=$(grep -v '^skipped' "$room/answers" | tail -n 1)
    masked=$(sqre run "$room/mask" "$room/mask.items" | tail -n 1)
    case $last in
        '{'*) same "$1: the mask has a table" '{}' "$masked" ;;
        *) same "$1: the mask has none" "$last" "$masked" && return ;;
    esac
    shard=0
    while [ "$shard" -lt "$2" ]; do
        lines_of "$room/items" "$shard" "$header" >"$room/shard.items"
        sqre run "$room/part" "$room/shard.items" | entries
        shard=$((shard + 1))
    done | LC_ALL=C sort >"$room/merged"
    same "$1: the entries after $(wc -l <"$room/items") lines" "$(echo "$last" | entries)" "$(cat "$room/merged")"
}

cd "$here/examples" || exit 1
while read -r name shards; do
    sqre part "$name/query.sqre" >"$room/part"
    sqre mask "$name/query.sqre" >"$room/mask"
    header=
    ! grep -q '^ *stream(header' "$name/query.sqre" || header=1
    count=$(wc -l <"$name/readings.csv")
    for some in $((count / 3)) $((count / 2)) "$count"; do
        head -n "$some" "$name/readings.csv" >"$room/items"
        is_divided "$name" "$shards"
    done
done <<END
$examples
END

# What is no collect is refused, where it stands, and a query with templates where it was written.
same 'a query that is no collect' 'refused whole 118..153
status 1' "$(sqre part rainfall/query.sqre; echo "status $?")"
has 'a query that is no collect: the sentence' 'only where its main query is a collect' "$(cat "$room/errors")"
printf '%s\n' 'def(sum(E), iter(atom(any, E), 0, add(x, y)))' 'stream(plain, col(a, int))' 'main(sum(a))' >"$room/query"
same 'a template that is no collect' 'refused whole 78..84
status 1' "$(sqre mask "$room/query"; echo "status $?")"
has 'a template that is no collect: the sentence' 'only where its main query is a collect' "$(cat "$room/errors")"
same 'no shards' 'status 2' "$(sqre route rainfall/query.sqre 0 /dev/null; echo "status $?")"
tell
