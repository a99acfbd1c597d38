#!/bin/sh
# Tests what ./sqre makes of queries with templates: that each in templates/examples means what the plain file beside it means, which
# was written by hand, and is answered as stored; that each in templates/refusals is explained as stored; how files are included; and
# that what the documents show of templates is so.
# shellcheck disable=SC2016  # quotes of Markdown are no commands
here=$(readlink -f -- "$0") || exit 1
here=${here%/tests/*}
# shellcheck source=/dev/null
. "$here/tests/shared"

room=$(mktemp -d) || exit 1
trap 'rm -rf -- "$room"' EXIT
trap 'exit 1' HUP INT TERM
XDG_CACHE_HOME=$room/cache
export XDG_CACHE_HOME

# The examples whose plain file is the very text that the query stands for. The others have lets, or are put together otherwise.
same_texts='before by highest only pages peak'

# What the words write, and their status.
told() {
    "$here/sqre" "$@" 2>"$room/errors"
    echo "status $?"
}

# Both queries of the example $1 have the same value on all items that are tried.
means_the_same() {
    same "check of $1" 'ok
status 0' "$(told check "$1/query.sqre")"
    for command in check bound; do
        same "$command of $1, as of its plain file" "$(told $command "$1/plain.sqre")" "$(told $command "$1/query.sqre")"
    done
    for seed in 1 2 3; do
        same "drill of $1 from $seed" "$(told drill "$1/plain.sqre" 200 $seed)" "$(told drill "$1/query.sqre" 200 $seed)"
    done
}

# The answers to the items of the example $1 are the stored ones.
is_answered() {
    answers="$(cat "$1/answers")
status 0"
    same "answers to $1" "$answers" "$(told run "$1/query.sqre" "$1/items.csv")"
    same "answers to $1, by the plain file" "$answers" "$(told run "$1/plain.sqre" "$1/items.csv")"
    same "answers to $1, searched anew" "$answers" "$(told slow "$1/query.sqre" "$1/items.csv")"
}

# The text that the query of the example $1 stands for, stands for itself.
is_expanded() {
    text=$(told expand "$1/query.sqre")
    echo "$text" | sed '$d' >"$room/text"
    same "the text of $1, expanded" "$text" "$(told expand "$room/text")"
    case " $same_texts " in
        *" $1 "*) same "the text of $1, and of its plain file" "$text" "$(told expand "$1/plain.sqre")" ;;
    esac
}

# The words of texts, each once.
words() {
    sed 's/#.*//' "$@" | tr -c 'a-z0-9_' '\n' | grep . | LC_ALL=C sort -u
}

# The names of templates that std.sqre defines.
defined() {
    sed -n 's/^def(\([a-z0-9_]*\).*/\1/p' "$here/templates/std.sqre" | LC_ALL=C sort
}

# The names of templates that docs/LANGUAGE.md has in its table.
described() {
    sed -n '/^| template | /,/^$/s/^| \([^|]*\) | .*/\1/p' "$here/docs/LANGUAGE.md" | sed '1d; s/([^)]*)//g' | tr -cs 'a-z0-9_' '\n' | grep . | LC_ALL=C sort
}

# The query of the folder $1 is refused as its explanation says: by one line on standard output, which the first line ends with.
is_refused() {
    cd "$here/templates/refusals/$1" || exit 1
    line=$(sed -n '1s/^.* (the column in bytes): //p' explanation)
    for command in check expand; do
        # Rules that are no rule of templates are asked of the text that expand writes.
        case $command:$line in
            'expand:refused template '*) ;;
            expand:*) continue ;;
        esac
        same "$command of $1" "$line
status 1" "$(told $command query.sqre)"
        same "the explanation of $1 by $command" "$(cat explanation)" "$(cat "$room/errors")"
    done
}

cd "$here/templates/examples" || exit 1
for name in */; do
    name=${name%/}
    means_the_same "$name"
    is_answered "$name"
    is_expanded "$name"
done
words ./*/query.sqre >"$room/words"
defined >"$room/defined"
same 'templates that no example uses' '' "$(LC_ALL=C comm -23 "$room/defined" "$room/words")"
same 'the templates in docs/LANGUAGE.md' "$(cat "$room/defined")" "$(described)"

for folder in "$here"/templates/refusals/*/; do
    folder=${folder%/}
    is_refused "${folder##*/}"
done

# The blocks of lines that the section $2 of the document $1 shows, each in a file by its number.
cut_shown() {
    rm -f -- "$room"/shown*
    room=$room section=$2 awk '
        /^## / { is_inside = $0 == ENVIRON["section"] }
        !is_inside { next }
        /^    / {
            if (!is_text) count++
            is_text = 1
            print substr($0, 5) >(ENVIRON["room"] "/shown" count)
            next
        }
        { is_text = 0 }' "$here/$1"
}

# The lines of the file $1 with the answers to them, of the files $2.
beside() {
    told run "$2" "$1" | sed '$d' | paste -d ' ' "$1" -
}

cd "$room" || exit 1
ln -s "$here/templates" templates
cut_shown docs/LANGUAGE.md '## Templates'
same 'the plain file in docs/LANGUAGE.md' "$(cat shown2)
status 0" "$(told expand shown1)"
percent=$here/templates/examples/percent
same 'percent in docs/LANGUAGE.md' "$(cat "$percent/query.sqre")" "$(sed 's|"templates/|"../../|' shown3)"
same 'its answers in docs/LANGUAGE.md' "$(paste "$percent/items.csv" "$percent/answers")" "$(cat shown4)"
type_in_body=$here/templates/refusals/type_in_body
same 'the refusal in docs/LANGUAGE.md' "$(sed -n '1s/^.* (the column in bytes): //p' "$type_in_body/explanation"
    cat "$type_in_body/explanation")" "$(cat shown5)"

cut_shown docs/TUTORIAL.md '## A first query'
same 'the answers in docs/TUTORIAL.md' "$(tr -s ' ' <shown2)" "$(beside "$here/examples/failures/readings.csv" shown1)"
same 'the plain file in docs/TUTORIAL.md' "$(cat shown3)
status 0" "$(told expand shown1)"
sed -n '/^| you want | `main` has |$/,/^$/p' "$here/docs/TUTORIAL.md" | grep -o '`[^`]*`' | tr -d '`' | sed 1d >mains
holds 'docs/TUTORIAL.md has queries in its table' [ -s mains ]
while IFS= read -r main; do
    { sed '$d' shown1 && echo "main($main)"; } >query
    same "$main in docs/TUTORIAL.md" 'ok
status 0' "$(told check query)"
done <mains
sed -n 's/^By templates (`\([a-z_]*\)`): `\(main(.*)\)`\.$/\1 \2/p' "$here/docs/TUTORIAL.md" >mains
holds 'docs/TUTORIAL.md has examples by templates' [ -s mains ]
while read -r name main; do
    example=$here/examples/$name
    { echo 'include("templates/std.sqre")' && grep '^stream' "$example/query.sqre" && echo "$main"; } >query
    same "$name by templates" "$(told run "$example/query.sqre" "$example/readings.csv")" "$(told run query "$example/readings.csv")"
done <mains

cut_shown README.md '## A first query'
main=$(sed -n 's/^may be `\(main(.*)\)`.*/\1/p' "$here/README.md")
{ echo 'include("templates/std.sqre")' && sed '$d' shown1 && echo "$main"; } >query
printf 'truck,tonnes\nA7,12.5\nB2,10\nA7,9.99\n' >items
same 'the first query of README.md, by a template' "$(told run shown1 items)" "$(told run query items)"

stream='stream(plain, col(a, int))'
printf '%s\n' 3 -1 4 >items

# A plain file is written as it is, in its canonical spelling.
printf '%s # numbers\nmain( iter(atom(any,a),+007 ,add(x,y)))' "$stream" >plain
same 'a plain file' "$stream
main(iter(atom(any, a), 7, add(x, y)))
status 0" "$(told expand plain)"
same 'a query from standard input' "$stream
main(iter(atom(any, a), 7, add(x, y)))
status 0" "$(told expand - <plain)"

# The lines that include files stand in front, and the files beside the query; one may lack its last line end.
mkdir 'a folder'
printf 'def(sum(E), iter(atom(any, E), 0, add(x, y)))' >'a folder/sums'
printf '%s\n' 'def(twice(E), sum(add(E, E)))' >'a folder/more sums'
printf '%s\n' '# What it is.' '' 'include("sums")  # sums' ' include ( "more sums" )' 'def(four_times(E), twice(add(E, E)))' "$stream" \
    'main(four_times(a))' >'a folder/query'
same 'files that are included' '12
8
24
status 0' "$(told run 'a folder/query' items)"
sed 's/$/\r/' 'a folder/query' >'a folder/other'
same 'lines that end with CR LF' "$(told expand 'a folder/query')" "$(told expand 'a folder/other')"
same 'check for editors' '[]
status 0' "$(told check --json 'a folder/query')"

printf '%s\n' 'include("nothing")' "$stream" 'main(sum(a))' >query
same 'a file that is not there' 'status 3' "$(told run query items)"
has 'a file that is not there: the sentence' 'nothing, which is not there, that query includes could not be read' "$(cat errors)"
printf '%s\n' 'include("a folder")' "$stream" 'main(sum(a))' >query
same 'a folder in place of a file' 'status 3' "$(told check query)"

# What a query stands for is kept by its sum, and used again as long as the query is the same.
printf '%s\n' 'def(first, a)' "$stream" 'main(iter(atom(any, first), 0, add(x, y)))' >query
same 'a query that is not kept yet' '3
2
6
status 0' "$(told run query items)"
sed 's/0, add/10, add/' query >other
for kept in "$XDG_CACHE_HOME"/sqre/expanded/*.sqre; do
    printf '%s\n' "$stream" 'main(iter(atom(any, 1), 0, add(x, y)))' >"$kept"
done
same 'a query that is kept' '1
2
3
status 0' "$(told run query items)"
same 'another query' '13
12
16
status 0' "$(told run other items)"
XDG_CACHE_HOME=$room/items
same 'where nothing can be kept' '3
2
6
status 0' "$(told run query items)"
tell
