#!/bin/sh
# Tests the commands of ./sqre that save a run and go on from it: the bytes of a snapshot, its flaws, the statuses with their sentences,
# which file is written where something fails, and what docs/LANGUAGE.md shows.
here=$(readlink -f -- "$0") || exit 1
here=${here%/tests/*}
# shellcheck source=/dev/null
. "$here/tests/shared"

room=$(mktemp -d) || exit 1
trap 'rm -rf -- "$room"' EXIT
trap 'exit 1' HUP INT TERM
worked=$here/crates/snapshot/data/sums.snapshot
cd "$room" || exit 1
printf '%s\n' 'stream(plain, col(a, int))' 'main(iter(atom(any, a), 0, add(x, y)))' >query
printf '%s\n' 5 7 -2 >items
printf '%s\n' 1 100 >later
: >none

sqre() {
    "$here/sqre" "$@" 2>errors
}

# The call of the words behind $3 ends with the status $1, writes $2, and says $3 on standard error.
ends() {
    status=$1
    wanted=$2
    sentence=$3
    shift 3
    same "status $status of $*" "${wanted}status $status" "$(sqre "$@"; echo "status $?")"
    has "status $status of $*: the sentence" "$sentence" "$(cat errors)"
}

test_saving() {
    sqre save query items >saved
    same 'save' 0 $?
    holds 'the snapshot of three items' cmp "$worked" saved
    ends 0 '11
111
' '' resume saved later
    sqre save query none >empty
    ends 0 '5
12
10
' '' resume empty items
    ends 0 '' '' resume saved none
    sqre save - items <query >other
    holds 'the snapshot of a query from standard input' cmp saved other
    sqre resume - later <saved >other
    same 'a snapshot from standard input' '11
111' "$(cat other)"
}

test_flaws() {
    { printf 'SQRE0002'; tail -c +9 saved; } >changed
    ends 8 'bad snapshot head
' 'is none (head)' resume changed later
    ends 8 'bad snapshot head
' 'is none (head)' resume none nothing
    head -c 135 saved >changed
    ends 8 'bad snapshot form
' 'altered (form)' resume changed later
    { cat saved; echo; } >changed
    ends 8 'bad snapshot form
' 'altered (form)' advance changed later new
    { printf 'SQRE0001\000\000\000\001@'; tail -c +79 saved; } >changed
    ends 8 'bad snapshot query
' 'its query is refused (query)' resume changed later
    { head -c 106 saved; printf '\004'; tail -c +108 saved; } >changed
    ends 8 'bad snapshot unfit
' 'does not fit that (unfit)' resume changed later
    head -c 67108865 /dev/zero >changed
    ends 8 'bad snapshot long
' '67,108,864 bytes (long)' resume changed later
    head -c 67108864 changed >other
    ends 8 'bad snapshot head
' 'is none (head)' resume other later
    rm -f -- changed other
    holds 'a bad snapshot gives no file' [ ! -e new ]
}

# The keys of such items take more bytes than a snapshot may have. The query has a table after an item below zero alone.
test_long() {
    printf '%s\n' 'stream(plain, col(key, text), col(a, int))' \
        'main(collect(key, not(any), seq(star(item(any)), item(lt(a, 0))), iter(atom(any, a), 0, add(x, y))))' >keys.sqre
    awk 'BEGIN { for (i = 0; i < 60000; i++) key = key "k"; for (i = 0; i < 1200; i++) print i key ",1" }' >keys
    ends 8 'bad snapshot long
' 'would have more than 67,108,864 bytes' save keys.sqre keys
    head -n 1000 keys >front
    tail -n +1001 keys >back
    sqre save keys.sqre front >kept
    same 'save of a thousand long keys' 0 $?
    cp kept before
    same 'advance to a snapshot that is too long' 'undefined
bad snapshot long' "$(sqre advance kept back kept | tail -n 2)"
    has 'advance to a snapshot that is too long: the sentence' 'would have more than 67,108,864 bytes' "$(cat errors)"
    holds 'it leaves the older one' cmp before kept
    rm -f -- keys front back kept before
}

test_statuses() {
    sed 's/any, a/any, b/' query >refused
    ends 1 'refused name 37..49
' 'Not known here: b' save refused nothing
    ends 2 '' 'the words are none of' save query
    ends 2 '' 'the words are none of' advance saved later
    ends 2 '' 'the words are none of' resume saved later new
    ends 3 '' 'the query nothing, which is not there, could not be read' save nothing items
    ends 3 '' 'the snapshot nothing, which is not there, could not be read' resume nothing later
    ends 4 '' 'read to their end; nothing was written' save query nothing
    ends 4 '' 'read to their end; all whole lines before are answered' resume saved nothing
    ends 4 '' 'answered, and the new snapshot is not written' advance saved nothing new
    holds 'items that can not be read give no file' [ ! -e new ]
    sqre save query items >/dev/full
    same 'status 5 of save' 5 $?
    if command -v script >/dev/null; then
        script -qec "'$here/sqre' save query items" /dev/null </dev/null >told
        same 'save to a terminal' 2 $?
        has 'save to a terminal: the sentence' 'sqre save QUERY ITEMS > SNAPSHOT' "$(cat told)"
    fi
}

test_advancing() {
    cat items later >all
    sqre save query all >whole
    ends 0 '11
111
' '' advance saved later new
    holds 'the snapshot of all items' cmp whole new
    cp saved log
    chmod 640 log
    ends 0 '11
111
' '' advance log later log
    holds 'the snapshot in the place of the earlier one' cmp whole log
    same 'its rights are those of the earlier one' log "$(find log -perm 640)"
    cp saved log
    ln -s log link
    ends 0 '11
111
' '' advance link later link
    holds 'a link is left, and what it leads to is new' [ -h link ]
    holds 'a link leads to the snapshot' cmp whole log
    cp saved log
    sqre advance log later log >/dev/full
    same 'answers that can not be written' 5 $?
    holds 'they leave the earlier snapshot' cmp saved log
    ends 2 '' 'is written to a file, which - is not' advance saved later -
    ends 2 '' 'is written to a file, which /dev/null is not' advance saved later /dev/null
    ends 5 '' 'no file can be made beside nowhere/new' advance saved later nowhere/new
}

# A query with templates is saved as the plain query that it stands for.
test_templates() {
    printf '%s\n' 'def(sum(E), iter(atom(any, E), 0, add(x, y)))' 'stream(plain, col(a, int))' 'main(sum(a))' >templates.sqre
    sqre save templates.sqre items >other
    same 'save of a query with templates' 0 $?
    ends 0 '11
111
' '' resume other later
}

# The commands that the section shows, each a line, write together what the other lines show.
test_shown() {
    awk '
        /^### / { is_inside = $0 == "### Runs that go on" }
        !is_inside || !/^    / { next }
        /^    (printf|\.\/sqre) / { print substr($0, 5) >"commands"; next }
        { print substr($0, 5) >"shown" }' "$here/docs/LANGUAGE.md"
    ln -s "$here/sqre" sqre
    holds 'docs/LANGUAGE.md shows runs that go on' [ -s commands ]
    same 'what docs/LANGUAGE.md shows of runs that go on' "$(cat shown)" "$(sh -e commands 2>&1 </dev/null)"
}

test_saving
test_flaws
test_long
test_statuses
test_advancing
test_templates
test_shown
same 'files that are left half done' '' "$(ls -- *.new.* 2>/dev/null)"
tell
