#!/bin/sh
# Tests the lines that bound and drill write, as they are in lines.txt.
here=$(readlink -f -- "$0") || exit 1
here=${here%/tests/*}
# shellcheck source=/dev/null
. "$here/tests/shared"

cd "$here/crates/examples/data" || exit 1
while IFS=: read -r words wanted; do
    case $words in
        '#'* | '') continue ;;
    esac
    command=${words%% *}
    rest=${words#* }
    name=${rest%% *}
    # shellcheck disable=SC2086  # these are words
    set -- ${rest#"$name"}
    same "$words" "${wanted# }
status 0" "$("$here/sqre" --quiet "$command" "$name/query.sqre" "$@" 2>&1; echo "status $?")"
done <"$here/tests/lines.txt"
tell
