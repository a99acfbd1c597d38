#!/bin/sh
# Tests the exit statuses of ./sqre, and the sentences beside them. No input is long enough for 7: of this running.sh tests what the
# script makes; of 8, which snapshots alone have, saved.sh.
here=$(readlink -f -- "$0") || exit 1
here=${here%/tests/*}
# shellcheck source=/dev/null
. "$here/tests/shared"

room=$(mktemp -d) || exit 1
trap 'rm -rf -- "$room"' EXIT
trap 'exit 1' HUP INT TERM
cd "$room" || exit 1
printf '%s\n' 'stream(plain, col(pulses, int))' 'main(iter(atom(any, pulses), 0, add(x, y)))' >query
sed 's/any, pulses/any, pulse/' query >refused
printf '%s\n' 'stream(plain, col(a, int))' 'main(iter(iter(atom(any, a), 0, add(x, y)), 0, add(x, y)))' >ambiguous
printf '%s\n' 5 7 -2 >items

# The call of the words behind $3 ends with the status $1, writes $2, and says $3 on standard error.
ends() {
    status=$1
    wanted=$2
    sentence=$3
    shift 3
    same "status $status of $*" "${wanted}status $status" "$("$here/sqre" "$@" 2>errors; echo "status $?")"
    has "status $status of $*: the sentence" "$sentence" "$(cat errors)"
}

ends 0 '5
12
10
' '' run query items
ends 0 '5
12
10
' '' slow query items
ends 0 'ok
' '' check query
ends 1 'refused name 42..58
' 'refused:2:11 (the column in bytes): refused name 42..58' check refused
ends 1 'refused name 42..58
' 'Not known here: pulse' run refused nothing
ends 0 'ok
' '' why query
ends 1 'refused name 42..58
' 'Not known here: pulse' why refused
ends 1 'refused iter 32..84
first 0
second 0 0
' 'ambiguous:2:6 (the column in bytes): refused iter 32..84' why ambiguous
ends 0 'stream(plain, col(pulses, int))
let(q1, atom(any, pulses))
let(q2, iter(q1, 0, add(x, y)))
main(q2)
' '' rewrite query
ends 1 'refused name 42..58
' 'Not known here: pulse' rewrite refused
ends 2 '' 'the words are none of' run query
ends 2 '' 'the words are none of' run query items items
ends 2 '' 'the words are none of' go query items
ends 2 '' 'the words are none of' rewrite query items
ends 2 '' 'the words are none of' drill query 1000001 0
ends 3 '' 'the query nothing, which is not there, could not be read' run nothing items
ends 3 '' 'the query ., which is a folder, could not be read' check .
ends 4 '' 'the items nothing, which is not there, could not be read' run query nothing
ends 4 '' 'the items ., which is a folder, could not be read' slow query .
ends 9 '' 'the system refuses the words' run query "$(printf '\377')"

"$here/sqre" run query items >/dev/full 2>errors
same 'status 5' 5 $?
has 'status 5: the sentence' 'the output failed' "$(cat errors)"
tell
