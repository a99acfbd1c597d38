#!/bin/sh
# Tests what .ci/run counts, and what .ci/reading-order finds, in a checkout of two crates with an rt that stands in for the true one.
here=$(readlink -f -- "$0") || exit 1
here=${here%/tests/*}
# shellcheck source=/dev/null
. "$here/tests/shared"

room=$(mktemp -d) || exit 1
trap 'rm -rf -- "$room"' EXIT
trap 'exit 1' HUP INT TERM
top="$room/a checkout"
mkdir -p "$top/.ci" "$top/docs" "$top/crates/low/specs" "$top/crates/sqre_run/specs" "$top/crates/sqre_run/src" "$room/kit"
cp "$here/.ci/run" "$here/.ci/shared" "$here/.ci/reading-order" "$top/.ci"
printf '%s\n' 'sqre_run: low' 'low:' >"$top/crates.txt"
: >"$top/.ci/packages"

# A script $1 that writes $2 and ends with $3.
stand_in() {
    printf '#!/bin/sh\necho "%s"\nexit %s\n' "$2" "$3" >"$1"
    chmod +x "$1"
}

# With an rt ci, a comparison of the release, and tests that end so, the last line and the status of the gate are these. The comparison of
# the page ends with $page_status.
page_status=0
gate() {
    stand_in "$room/kit/rt" "$2" "$3"
    stand_in "$top/.ci/release" 'of the release' "$4"
    stand_in "$top/.ci/page" 'of the page' "$page_status"
    stand_in "$top/.ci/test" "$5" "$6"
    same "the gate: $1" "$7" "$(PATH=$room/kit:$PATH "$top/.ci/run" >"$room/told" 2>&1; status=$?; tail -n 1 "$room/told"; echo "status $status")"
    has "the gate: $1: what rt wrote" "$2" "$(cat "$room/told")"
}

order() {
    CDPATH=$room/kit "$top/.ci/reading-order" "$@" 2>&1
    echo "status $?"
}

cat >"$top/crates/sqre_run/src/call.rt" <<'END'
//! The top call.
ghost use Rattle.std.specs.Prelude.{Option};
ghost use Rattle.sqre_run.specs.Call.{Outcome};

fn sqre() {}
END
cat >"$top/crates/sqre_run/specs/Call.antt" <<'END'
-- Statement.
use Rattle.sqre_run.specs.declared.status.Status.{Status}
use Rattle.low.specs.Lines.{lines} 

abbrev pub Outcome : Type 0
END
echo 'use Rattle.low.specs.Bytes as bytes' >"$top/crates/low/specs/Lines.antt"
echo '-- Statement.' >"$top/crates/low/specs/Bytes.antt"
echo '-- For the prover.' >"$top/crates/low/specs/Other.antt"
cat >"$top/docs/PROOF.md" <<'END'
[before](../crates/low/specs/Other.antt)
## Reading order
1. [Bytes](../crates/low/specs/Bytes.antt), [Lines](../crates/low/specs/Lines.antt)
2. [Call](../crates/sqre_run/specs/Call.antt)
## Behind
[behind](../crates/low/specs/Other.antt)
END
same 'the reading order' 'docs/PROOF.md links the 3 files that crates/sqre_run/src/call.rt stands on: 7 lines, 3 without imports and blanks
status 0' "$(order)"
same 'its list' 'crates/low/specs/Bytes.antt
crates/low/specs/Lines.antt
crates/sqre_run/specs/Call.antt
status 0' "$(order --list)"
gate 'all is well' '3 passed, 0 failed (a note)' 0 0 '5 passed, 0 failed' 0 '11 passed, 0 failed
status 0'
gate 'rt ci fails' '2 passed, 1 failed' 1 0 '5 passed, 0 failed' 0 '10 passed, 1 failed
status 1'
gate 'rt ci ends early' 'it has ended' 2 0 '5 passed, 0 failed' 0 '8 passed, 1 failed
status 1'
gate 'the release is stale' '3 passed, 0 failed' 0 1 '5 passed, 0 failed' 0 '10 passed, 1 failed
status 1'
page_status=1
gate 'the page is stale' '3 passed, 0 failed' 0 0 '5 passed, 0 failed' 0 '10 passed, 1 failed
status 1'
page_status=0
gate 'a test fails' '3 passed, 0 failed' 0 0 '4 passed, 1 failed' 1 '10 passed, 1 failed
status 1'
printf '#!/bin/sh\necho "$@" >>"%s"\n' "$room/packages" >"$room/kit/apt-get"
chmod +x "$room/kit/apt-get"
printf '%s\n' sh 'shell sh' 'of_another_name no_such_name' no_such_command >"$top/.ci/packages"
gate 'a package is absent' '3 passed, 0 failed' 0 0 '5 passed, 0 failed' 0 '11 passed, 0 failed
status 0'
wanted=
[ "$(id -u)" -ne 0 ] || wanted='of_another_name no_such_command'
same 'what is installed' "$wanted" "$(sed -n 's/.* --no-install-recommends //p' "$room/packages" 2>/dev/null)"
sed 's/Lines.antt/Other.antt/' "$top/docs/PROOF.md" >"$room/page"
cp "$room/page" "$top/docs/PROOF.md"
has 'a link too few' 'low/specs/Lines.antt is not linked' "$(order)"
has 'a link too many' 'low/specs/Other.antt is linked, and' "$(order)"
has 'another reading order: its status' 'status 1' "$(order)"
gate 'the reading order differs' '3 passed, 0 failed' 0 0 '5 passed, 0 failed' 0 '10 passed, 1 failed
status 1'
rm "$top/crates/low/specs/Bytes.antt"
has 'an import of no file' 'no file for the import of low.specs.Bytes' "$(order)"
tell
