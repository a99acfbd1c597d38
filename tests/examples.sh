#!/bin/sh
# Tests what ./sqre answers to the examples, as they are stored: by both engines, of each whether it is accepted, and the same of the
# text of what it is rewritten as.
here=$(readlink -f -- "$0") || exit 1
here=${here%/tests/*}
# shellcheck source=/dev/null
. "$here/tests/shared"

room=$(mktemp -d) || exit 1
trap 'rm -rf -- "$room"' EXIT
trap 'exit 1' HUP INT TERM
cd "$here/crates/examples/data" || exit 1

# A file for each example of what is stored of it: its name is a line before it, and its status the last line.
cut_stored() {
    awk -v room="$room" '
        file == "" { file = room "/" $0; next }
        { print >file }
        /^status [0-9]+$/ { close(file); file = "" }' ../stdout
}

# The answers by the command $1 to the example $2, or to its readings by the query file $3, are the stored ones.
answers() {
    {
        "$here/sqre" "$1" "${3-$2/query.sqre}" "$2/readings.csv" 2>/dev/null
        echo "status $?"
    } >"$room/found"
    cmp -s "$room/$2" "$room/found" || { diff "$room/$2" "$room/found" | head -n 6; return 1; }
}

# What the command $1 writes of the query file $2, and its status.
told() {
    "$here/sqre" "$1" "$2" 2>/dev/null
    echo "status $?"
}

# What check is to say of an example, by the stored answers.
is_checked() {
    case $(tail -n 1 "$room/$1") in
        'status 1') wanted=$(cat "$room/$1") ;;
        *) wanted='ok
status 0' ;;
    esac
    same "check of $1" "$wanted" "$(told check "$1/query.sqre")"
}

# A refused example is refused by rewrite as by check. The text of any other is accepted with the same bound and answers, and is
# rewritten as itself.
is_rewritten() {
    told rewrite "$1/query.sqre" >"$room/text"
    if [ "$(tail -n 1 "$room/$1")" = 'status 1' ]; then
        same "rewriting of $1" "$(cat "$room/$1")" "$(cat "$room/text")"
        return
    fi
    same "rewriting of $1" 'status 0' "$(tail -n 1 "$room/text")"
    sed '$d' "$room/text" >"$room/rewritten.sqre"
    for command in check bound; do
        same "$command of $1, rewritten" "$(told "$command" "$1/query.sqre")" "$(told "$command" "$room/rewritten.sqre")"
    done
    holds "answers to $1, rewritten" answers run "$1" "$room/rewritten.sqre"
    same "rewriting of $1, rewritten" "$(cat "$room/text")" "$(told rewrite "$room/rewritten.sqre")"
}

cut_stored
for name in */; do
    name=${name%/}
    holds "answers to $name" answers run "$name"
    is_checked "$name"
    is_rewritten "$name"
    # It searches all items anew after each one.
    if [ "$(wc -l <"$room/$name")" -le 1000 ]; then
        holds "answers to $name, searched anew" answers slow "$name"
    fi
    rm "$room/$name"
done
rm -f -- "$room/found" "$room/text" "$room/rewritten.sqre"
same 'stored answers to other examples' '' "$(ls "$room")"
tell
