#!/bin/sh
# Tests by the shell $1, as dash or busybox, what the scripts sqre and .ci/build build and when, and what is shown where a query is refused:
# in a checkout of few crates, with programs and an rt that stand in for the true ones. It needs no toolchain.
# shellcheck disable=SC2154  # tests/shared has $room, $top and $tools
here=$(readlink -f -- "$0") || exit 1
here=${here%/tests/*}
# shellcheck source=/dev/null
. "$here/tests/shared"

test_nothing_to_run() {
    same 'no rt, no release' 'status 10' "$(answer without_rt "$top/sqre" which)"
    has 'no rt, no release: why' 'rt' "$(cat "$room/errors")"
    has 'no rt, no release: version' 'there is no release' "$(without_rt "$top/sqre" --version)"
}

test_first_build() {
    forget
    same 'first build' 'built
status 0' "$(answer with_rt "$top/sqre" which)"
    same 'first build: what rt was asked' 'ci low sqre;ci low aside explain;' "$(asked)"
    has 'first build: progress' 'proving 2 crates (' "$(cat "$room/errors")"
    has 'first build: its end' 'proved and built in' "$(cat "$room/errors")"
    holds 'first build: no lock is left' [ ! -e "$top/crates/sqre/out/lock" ]
    holds 'first build: no copy is left' [ ! -e "$HOME/.cache/sqre$top/build" ]
    forget
    same 'behind the first build' 'built
status 0' "$(answer without_rt "$top/sqre" which)"
    same 'behind the first build: what rt was asked' '' "$(asked)"
    has 'built: version' 'proved and built here by stand-in kit' "$(without_rt "$top/sqre" --version)"
}

test_newer_sources() {
    touch "$top/crates/other/src/lib.rt"
    same 'code of another crate is newer' 'built
status 0' "$(answer without_rt "$top/sqre" which)"
    tick
    echo 'changed' >"$top/crates/low/specs/Lib.antt"
    same 'a definition is newer' 'built
status 0' "$(answer without_rt "$top/sqre" which)"
    has 'a definition is newer: version' 'proves it anew' "$(without_rt "$top/sqre" --version)"
    echo 'changed' >"$top/crates/low/src/lib.rt"
    same 'code is newer, no rt' 'status 10' "$(answer without_rt "$top/sqre" which)"
    forget
    same 'code is newer' 'built
status 0' "$(answer with_rt "$top/sqre" which)"
    same 'code is newer: what rt was asked' 'ci low sqre;ci low aside explain;' "$(asked)"
    touch -d '2099-01-01' "$top/crates/low/src/lib.rt"
    forget
    same 'a time to come' 'built
status 0' "$(answer with_rt "$top/sqre" which)"
    same 'a time to come: what rt was asked' '' "$(asked)"
    touch "$top/crates/low/src/lib.rt"
}

test_explanations() {
    echo 'bad' >"$room/bad.sqre"
    same 'a refusal' 'refused
status 1' "$(answer without_rt "$top/sqre" check "$room/bad.sqre")"
    same 'a refusal is explained' "$room/bad.sqre is explained, built" "$(cat "$room/errors")"
    tick
    touch "$top/crates/aside/src/lib.rt"
    echo 'changed' >"$top/crates/aside/src/lib.rt"
    forget
    same 'a refusal, and the explanation is older' 'refused
status 1' "$(answer with_rt "$top/sqre" check "$room/bad.sqre")"
    same 'the older explanation' "$room/bad.sqre is explained, built" "$(cat "$room/errors")"
    rm "$top/crates/explain/out/explain"
    same 'a refusal without an explanation' 'refused
status 1' "$(answer with_rt "$top/sqre" check "$room/bad.sqre")"
    has 'no explanation' 'sqre --prove' "$(cat "$room/errors")"
    same 'refusals build nothing' '' "$(asked)"
    mkdir -p "$room/dash"
    echo 'fine' >"$room/dash/-"
    same 'a file that is named -' 'refused
status 1' "$(cd "$room/dash" && echo 'bad' | answer without_rt "$top/sqre" check -)"
    same 'a file that is named - is not read' '' "$(cat "$room/errors")"
}

test_failing_build() {
    RT_FAILS=low
    export RT_FAILS
    tick
    echo 'wrong' >"$top/crates/low/src/lib.rt"
    same 'a build that fails' 'status 10' "$(answer with_rt "$top/sqre" which)"
    has 'a build that fails: its crate' 'low is not proved' "$(cat "$room/errors")"
    has 'a build that fails: what rt wrote' 'rt wrote this of low' "$(cat "$room/errors")"
    holds 'a build that fails leaves no lock' [ ! -e "$top/crates/sqre/out/lock" ]
    RT_FAILS=aside
    same 'the explanation fails' 'built
status 0' "$(answer with_rt "$top/sqre" which)"
    tick
    echo 'again' >"$top/crates/low/src/lib.rt"
    same 'the explanation of a refusal fails' 'refused
status 1' "$(answer with_rt "$top/sqre" check "$room/bad.sqre")"
    unset RT_FAILS
}

test_two_at_once() {
    rm -rf "$top"/crates/*/out
    forget
    RT_TAKES=1
    export RT_TAKES
    (answer with_rt "$top/sqre" which) >"$room/one" &
    one=$!
    sleep 0.5
    same 'the second of two first calls' 'built
status 0' "$(answer with_rt "$top/sqre" which)"
    wait "$one"
    same 'the first of two first calls' 'built
status 0' "$(cat "$room/one")"
    same 'two first calls: what rt was asked' 'ci low sqre;ci low aside explain;' "$(asked)"
    unset RT_TAKES
}

test_end_of_build() {
    rm -rf "$top"/crates/*/out
    forget
    RT_TAKES=20
    export RT_TAKES
    (PATH=$room/kit:$tools exec "$top/sqre" which) >"$room/one" 2>/dev/null &
    one=$!
    wait_for "$RT_LOG"
    job=$(sed -n 's/^begin ci low sqre //p' "$RT_LOG")
    holds 'a build has begun' kill -0 "$job"
    kill -s TERM "$one"
    wait "$one" 2>/dev/null
    same 'TERM while it builds' 143 $?
    holds 'TERM while it builds ends what was begun' sh -c "! kill -0 $job 2>/dev/null && ! kill -0 -- -$job 2>/dev/null"
    holds 'TERM while it builds leaves no lock' [ ! -e "$top/crates/sqre/out/lock" ]
    unset RT_TAKES
    mkdir -p "$top/crates/sqre/out/lock"
    echo 99999999 >"$top/crates/sqre/out/lock/holder"
    same 'a lock that was left is taken over' 'built
status 0' "$(answer with_rt "$top/sqre" which)"
}

# An explanation that stands in for one with a second place, and reads what it explains.
make_long_explanation() {
    cat <<END
#!$tools/sh
[ \$# -gt 0 ] || exit 2
case \$(cat) in
    fine) exit 0 ;;
    none) exit 6 ;;
esac
printf '%s\n' "\$1:2:11 (the column in bytes): refused name 42..58" '    a "line"' '      ^^^^' 'It says "so".' 'Mend it.' \
    "\$1:3:4 (the column in bytes): it is used here" '    line' '    ^^' '    5\6'
exit 1
END
}

test_json() {
    make_long_explanation >"$top/crates/explain/out/explain"
    wanted='"line": 2, "column": 11, "length": 16, "rule": "name", "sentence": "It says \"so\".", "help": ["Mend it.", "    5\\6"], "also": [{"line": 3, "column": 4, "length": 2, "sentence": "it is used here"}]}]
status 1'
    echo fine >"$room/fine.sqre"
    echo none >"$room/none.sqre"
    same 'JSON of an accepted query' '[]
status 0' "$(answer without_rt "$top/sqre" check --json "$room/fine.sqre")"
    same 'JSON of a refused query' "[{\"file\": \"$room/bad.sqre\", $wanted" "$(answer without_rt "$top/sqre" check --json "$room/bad.sqre")"
    same 'JSON of standard input' "[{\"file\": \"-\", $wanted" "$(echo bad | answer without_rt "$top/sqre" check --json -)"
    same 'no JSON where there is no memory' 'status 6' "$(answer without_rt "$top/sqre" check --json "$room/none.sqre")"
    same 'no JSON of nothing' 'status 3' "$(answer without_rt "$top/sqre" check --json "$room/nothing.sqre")"
    has 'no JSON of nothing: why' 'which is not there' "$(cat "$room/errors")"
}

make_room "$1"
test_nothing_to_run
test_first_build
test_newer_sources
test_explanations
test_failing_build
test_two_at_once
test_end_of_build
test_json
tell
