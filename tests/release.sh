#!/bin/sh
# Tests the release as a stranger meets it: a new copy of the checkout in which nothing is built. Where the code has changed since, it
# says so and tests nothing; the gate fails then.
here=$(readlink -f -- "$0") || exit 1
here=${here%/tests/*}
# shellcheck source=/dev/null
. "$here/tests/shared"

room=$(mktemp -d) || exit 1
trap 'rm -rf -- "$room"' EXIT
trap 'exit 1' HUP INT TERM

# The copy has no folder out.
copy_checkout() {
    mkdir -p "$room/copy/crates/examples" || return 1
    cp -R "$here/sqre" "$here/.ci" "$here/crates.txt" "$here/HANDLES" "$room/copy" || return 1
    [ ! -d "$here/release" ] || cp -R "$here/release" "$room/copy" || return 1
    cp -R "$here/crates/examples/data" "$room/copy/crates/examples" || return 1
    for folder in "$here"/crates/*/src "$here"/crates/*/specs "$here"/crates/*/proofs; do
        [ -d "$folder" ] || continue
        crate=${folder%/*}
        mkdir -p "$room/copy/crates/${crate##*/}" && cp -R "$folder" "$room/copy/crates/${crate##*/}" || return 1
    done
}

copy_checkout || exit 1
cd "$room/copy/crates/examples/data" || exit 1
case $("$room/copy/sqre" --version) in
    *'the release, proved and built by '*) ;;
    *)
        echo "not tested: $("$room/copy/sqre" --version | tail -n 1)"
        tell
        exit
        ;;
esac
same 'the release answers' '0
12
16
skipped number 2
skipped digits 2
46
54
status 0' "$("$room/copy/sqre" run rainfall/query.sqre rainfall/readings.csv 2>&1; echo "status $?")"
has 'the release explains' 'Not known here: temperature' "$("$room/copy/sqre" check refused_name/query.sqre 2>&1)"
tell
