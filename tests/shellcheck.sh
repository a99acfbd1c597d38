#!/bin/sh
# Tests that shellcheck finds nothing in the scripts of the repository.
here=$(readlink -f -- "$0") || exit 1
here=${here%/tests/*}
# shellcheck source=/dev/null
. "$here/tests/shared"

cd "$here" || exit 1
for file in sqre .ci/* tests/* bench/* web/*; do
    [ "$(head -n 1 "$file" 2>/dev/null)" = '#!/bin/sh' ] || continue
    holds "shellcheck of $file" shellcheck "$file"
done
tell
