#!/bin/sh
# Tests the page release/sqre.html in Chromium: that it is web/ around its programs, that these write the bytes that the programs write
# which ./sqre runs, and what a person sees, types and shares. With --pictures DIR it puts pictures of the page there, to be looked at.
# Where the code has changed since the page was made, it says so and tests nothing; the gate fails then.
here=$(readlink -f -- "$0") || exit 1
here=${here%/tests/*}
# shellcheck source=/dev/null
. "$here/.ci/shared"
# shellcheck source=/dev/null
. "$here/tests/shared"

skip() {
    echo "not tested: $1"
    tell
    exit
}

command -v chromium >/dev/null || skip 'chromium is not here'
command -v python3 >/dev/null || skip 'python3 is not here'
page=$here/release/sqre.html
[ -r "$page" ] || skip 'there is no page'
sums="sqre $(sum_of sqre), sqre-explain $(sum_of explain), "
case $(sed -n 's/^<meta name="sources" content="\([^"]*\)">$/\1/p' "$page") in
    "$sums"*) ;;
    *) skip 'the code is not that of the page' ;;
esac
find_program sqre || skip 'there is no program to compare with'
# shellcheck disable=SC2154  # .ci/shared has it
run=$program
find_program explain || skip 'there is no program to compare with'
room=$(mktemp -d) || exit 1
trap 'rm -rf -- "$room"' EXIT
trap 'exit 1' HUP INT TERM
holds 'the page is web/ around its programs' "$here/.ci/page" --pack --check >/dev/null
python3 "$here/tests/page.py" "$page" "$run" "$program" "$@" >"$room/told" 2>&1
sed '$d' "$room/told"
counts=$(tail -n 1 "$room/told" | sed -n 's/^\([0-9]*\) passed, \([0-9]*\) failed$/\1 \2/p')
[ -n "$counts" ] || tail -n 1 "$room/told"
counts=${counts:-0 1}
passed=$((passed + ${counts% *}))
failed=$((failed + ${counts#* }))
tell
