#!/bin/sh
# Tests what ./sqre beside does for several queries: which of them it explains, or names, where one is the cause; and queries with templates.
here=$(readlink -f -- "$0") || exit 1
here=${here%/tests/*}
# shellcheck source=/dev/null
. "$here/tests/shared"

room=$(mktemp -d) || exit 1
trap 'rm -rf -- "$room"' EXIT
trap 'exit 1' HUP INT TERM
cd "$room" || exit 1
XDG_CACHE_HOME=$room/cache
TMPDIR=$room/temporary
export XDG_CACHE_HOME TMPDIR
mkdir temporary

stream='stream(plain, col(a, int))'
printf '%s\n' 3 -1 4 >items
printf '%s\n' "$stream" 'main(iter(atom(any, a), 0, add(x, y)))' >sum
sed 's/any, a/any, b/' sum >refused
sed 's/plain/header/' sum >other
printf '%s\n' 'def(greatest(E), iter(atom(any, E), 0, max(x, y)))' "$stream" 'main(greatest(a))' >greatest
sed 's/greatest(a)/greatest(c)/' greatest >refused_use
sed 's/plain/header/' greatest >other_use

# The call of the words behind $3 ends with the status $1, writes $2, and says $3 on standard error.
ends() {
    status=$1
    wanted=$2
    sentence=$3
    shift 3
    same "status $status of $*" "${wanted}status $status" "$("$here/sqre" "$@" 2>errors; echo "status $?")"
    has "status $status of $*: the sentence" "$sentence" "$(cat errors)"
}

# What was said of one query names no other one.
says_no_more() {
    same "no more is said of $1" '' "$(grep "$1" errors)"
}

both='3	3	3
-1	2	3
4	6	4
'
ends 0 "$both" '' beside sum greatest items
ends 0 '3	3
-1	3
4	4
' '' beside greatest items
ends 0 '4
' '' last greatest items
ends 1 'refused name 37..49
' 'refused:2:11 (the column in bytes): refused name' beside sum refused items
ends 1 'refused name 37..49
' 'refused:2:11 (the column in bytes): refused name' beside sum refused refused_use items
says_no_more refused_use
ends 1 'refused name 83..94
' 'refused_use:3:6 (the column in bytes): refused name' beside sum greatest refused_use refused items
says_no_more 'refused:'
ends 1 'refused name 83..94
' 'Not known here: c' last refused_use items
ends 3 '' 'the query nothing, which is not there, could not be read; nothing was written' beside sum nothing refused_use items
ends 3 '' 'the query ., which is a folder, could not be read' beside greatest . items
ends 4 '' 'the items nothing, which is not there, could not be read' beside sum greatest nothing
ends 4 '' 'could not be read to their end; nothing was written' last greatest nothing
ends 11 'stream 2
' 'other reads another stream than sum: stream(header, col(a, int)), and not stream(plain, col(a, int))' beside sum other nothing
ends 11 'stream 3
' 'other_use reads another stream than greatest: stream(header' beside greatest sum other_use items
ends 1 'refused name 83..94
' 'Not known here: c' beside sum other refused_use items
ends 2 '' 'none of those that --help shows' beside sum
ends 2 '' 'none of those that --help shows' last sum greatest items
same 'a query from standard input' "${both}status 0" "$("$here/sqre" beside - greatest items <sum; echo "status $?")"
same 'one from standard input that is refused' 'refused name 37..49
status 1' "$("$here/sqre" beside sum - items <refused 2>errors; echo "status $?")"
same 'it can not be read again' '' "$(cat errors)"
rm -rf cache
XDG_CACHE_HOME=$room/items
ends 0 '3	3	3	3
-1	3	2	3
4	4	6	4
' '' beside greatest sum greatest items
same 'files that are left' '' "$(ls temporary)"
tell
