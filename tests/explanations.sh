#!/bin/sh
# Tests the explanations that ./sqre shows of the refused queries in crates/explain/data, as they are stored beside them.
here=$(readlink -f -- "$0") || exit 1
here=${here%/tests/*}
# shellcheck source=/dev/null
. "$here/tests/shared"

cd "$here/crates/explain/data" || exit 1

# The stored lines of a file: they begin with its name, and end where those of another begin.
stored() {
    awk -v wanted="$1" '
        FILENAME == "../args" { names[++count] = $0; next }
        {
            for (i = 1; i <= count; i++) if (index($0, names[i] ":") == 1) current = names[i]
            if (current == wanted) print
        }' ../args ../stdout
}

while IFS= read -r name; do
    wanted=$(stored "$name")
    status=1
    [ -n "$wanted" ] || status=0
    same "the explanation of $name" "$wanted
status $status" "$("$here/sqre" check "$name" 2>&1 >/dev/null; echo "status $?")"
done <../args
tell
