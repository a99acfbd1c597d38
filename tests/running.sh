#!/bin/sh
# Tests by the shell $1, as dash or busybox, how the script sqre runs a program: that of the release where it is of these sources, from
# whatever folder, with its input, output and status; and what it installs. The checkout is that of building.sh, with its stand-ins.
# shellcheck disable=SC2154  # tests/shared has $room, $top and $tools
here=$(readlink -f -- "$0") || exit 1
here=${here%/tests/*}
# shellcheck source=/dev/null
. "$here/tests/shared"

test_release() {
    (with_rt "$top/.ci/build" && with_rt "$top/.ci/release") 2>/dev/null
    holds 'the release is what was built' with_rt "$top/.ci/release" --check >/dev/null 2>&1
    make_program release >"$room/kit/sqre"
    for name in explain expand shard snapshot beside view hints; do
        make_explanation release >"$room/kit/$name"
    done
    fresh="$room/a folder/clone"
    make_checkout "$fresh"
    echo 'bad' >"$room/bad.sqre"
    (with_rt "$fresh/.ci/build" && with_rt "$fresh/.ci/release") 2>/dev/null
    make_rt
    rm -rf "$fresh"/crates/*/out
    forget
    same 'the release of a clean clone' 'release
status 0' "$(answer without_rt "$fresh/sqre" which)"
    same 'nothing is said of it' '' "$(cat "$room/errors")"
    unpacked=$(ls -i "$fresh/crates/sqre/out/release/sqre")
    same 'the release again' 'release
status 0' "$(answer without_rt "$fresh/sqre" which)"
    same 'it is unpacked once' "$unpacked" "$(ls -i "$fresh/crates/sqre/out/release/sqre")"
    has 'the release: version' 'the release, proved and built by stand-in kit for x86-64-v2' "$(without_rt "$fresh/sqre" --version)"
    same 'the release: a refusal' 'refused
status 1' "$(answer without_rt "$fresh/sqre" check "$room/bad.sqre")"
    same 'the release: its explanation' "$room/bad.sqre is explained, release" "$(cat "$room/errors")"
    same 'rt is not asked' '' "$(asked)"
    touch "$fresh/crates/low/src/lib.rt"
    same 'a time alone has changed' 'release
status 0' "$(answer without_rt "$fresh/sqre" which)"
    touch -d '2099-01-01' "$fresh/crates/low/src/lib.rt"
    same 'the release and a time to come' 'release
status 0' "$(answer without_rt "$fresh/sqre" which)"
    touch "$fresh/crates/low/src/lib.rt"
}

test_other_sources() {
    cp "$fresh/crates/low/specs/Lib.antt" "$room/kept"
    tick
    echo 'another' >"$fresh/crates/low/specs/Lib.antt"
    same 'the release is of other sources, no rt' 'status 10' "$(answer without_rt "$fresh/sqre" which)"
    has 'the release is of other sources: why' 'the code is not that of the release' "$(cat "$room/errors")"
    same 'the release is of other sources' 'built
status 0' "$(answer with_rt "$fresh/sqre" which)"
    holds 'the release is stale' sh -c "! PATH='$room/kit:$tools' '$fresh/.ci/release' --check >/dev/null 2>&1"
    cp "$room/kept" "$fresh/crates/low/specs/Lib.antt"
    rm -rf "$fresh"/crates/*/out
    same 'the sources are those of the release again' 'release
status 0' "$(answer without_rt "$fresh/sqre" which)"
    forget
    same 'it is proved all the same' 'status 0' "$(answer with_rt "$fresh/sqre" --prove)"
    same 'it is proved all the same: what rt was asked' 'ci low sqre aside explain expand shard snapshot beside view hints;' "$(asked)"
    if [ "$(awk '/^MemAvailable:/ { print int($2 / 4000000) }' /proc/meminfo)" -ge "$(nproc)" ]; then
        same 'crates are proved side by side' "$(nproc)" "$(sed -n 's/^beside //p' "$RT_LOG")"
    else
        echo 'not tested: that as many crates are proved side by side as there are processors, since memory lacks'
    fi
    same 'what is proved here is run' 'built
status 0' "$(answer without_rt "$fresh/sqre" which)"
    rm -rf "$fresh"/crates/*/out
}

test_broken_release() {
    for file in sqre.gz sums; do
        cp "$fresh/release/x86_64-linux/$file" "$room/kept"
        echo 'broken' >"$fresh/release/x86_64-linux/$file"
        rm -rf "$fresh"/crates/*/out
        same "a broken $file" 'status 10' "$(answer without_rt "$fresh/sqre" which)"
        has "a broken $file: why" 'release' "$(cat "$room/errors")"
        cp "$room/kept" "$fresh/release/x86_64-linux/$file"
    done
    gzip -c "$top/crates.txt" >"$fresh/release/x86_64-linux/sqre.gz"
    same 'a release of another program' 'status 10' "$(answer without_rt "$fresh/sqre" which)"
    has 'a release of another program: why' 'the release is broken' "$(cat "$room/errors")"
    cp "$room/kept" "$room/sums"
    make_program release | gzip -9nc >"$fresh/release/x86_64-linux/sqre.gz"
    same 'a release that is whole again' 'release
status 0' "$(answer without_rt "$fresh/sqre" which)"
}

# A user who may write nothing of it has a folder of his own.
test_read_only() {
    rm -rf "$fresh"/crates/*/out
    chmod -R a-w "$fresh"
    chmod 755 "$room" "$room/a folder"
    mkdir -p "$room/of user"
    user=
    if [ "$(id -u)" -eq 0 ]; then
        user="$(command -v setpriv) --reuid=65534 --regid=65534 --clear-groups"
        chown -R 65534:65534 "$room/of user"
    fi
    for time in first second; do
        # shellcheck disable=SC2086  # these are words
        same "a checkout that can not be written, the $time time" 'release
status 0' "$(HOME="$room/of user" answer without_rt $user "$fresh/sqre" which)"
    done
    holds 'it is unpacked to a folder of the user' [ -x "$room/of user/.cache/sqre$fresh/release/sqre" ]
    # shellcheck disable=SC2086  # these are words
    same 'no folder can be written' 'status 10' "$(HOME=/dev/null answer without_rt $user "$fresh/sqre" which)"
    has 'no folder can be written: why' 'can be written' "$(cat "$room/errors")"
    chmod -R u+w "$fresh"
}

test_ways_to_it() {
    mkdir -p "$room/bin" "$room/lost/.ci" "$room/lost/sqre"
    ln -s "$fresh/sqre" "$room/bin/sqre"
    ln -s sqre "$room/bin/one -> another"
    same 'through a link' 'release
status 0' "$(answer without_rt "$room/bin/sqre" which)"
    same 'through a link that is named with an arrow' 'release
status 0' "$(answer without_rt "$room/bin/one -> another" which)"
    same 'through the path' 'release
status 0' "$(PATH=$room/bin:$tools answer sqre which)"
    same 'by the shell, from its folder' 'release
status 0' "$(cd "$fresh" && CDPATH=$room/lost answer without_rt sh sqre which)"
    same 'a build from the top, with a CDPATH' 'status 0' "$(cd "$top" && CDPATH=$room/lost answer with_rt .ci/build)"
}

test_copy_alone() {
    cp "$fresh/sqre" "$room/alone"
    same 'the script alone' 'status 10' "$(answer without_rt "$room/alone" which)"
    has 'the script alone: why' 'the top of its checkout' "$(cat "$room/errors")"
}

test_input_and_output() {
    echo 'some items' >"$room/items"
    same 'items of standard input' 'some items
status 0' "$(answer without_rt "$fresh/sqre" run query - <"$room/items")"
    for at in 3 4 8 9; do
        same "items of descriptor $at" 'some items
status 0' "$(eval "answer without_rt '$fresh/sqre' run query /dev/fd/$at $at<'$room/items'")"
    done
    same 'standard input is closed' 'release
status 0' "$(answer without_rt "$fresh/sqre" which <&-)"
    (answer without_rt "$fresh/sqre" exit 5 >/dev/full) 2>/dev/null
    has 'the output failed' 'the output failed' "$(cat "$room/errors")"
    { answer without_rt "$fresh/sqre" exit 5; } | cat >/dev/null
    same 'the reader has gone' '' "$(cat "$room/errors")"
    if dd oflag=nonblock count=0 </dev/null >/dev/null 2>&1; then
        { dd oflag=nonblock count=0 </dev/null 2>/dev/null && answer without_rt "$fresh/sqre" exit 5; } | cat >/dev/null
        has 'a pipe that does not wait is full' 'the output failed' "$(cat "$room/errors")"
    fi
}

test_statuses() {
    for status in 0 1 2 3 4 5 6 7 8 9; do
        same "status $status" "status $status" "$(answer without_rt "$fresh/sqre" exit "$status")"
        case $status in
            [0125]) ;;
            *) holds "status $status has a sentence" [ -s "$room/errors" ] ;;
        esac
    done
    for sign in TERM KILL USR1; do
        (without_rt "$fresh/sqre" kill "$sign"; exit $?) 2>/dev/null
        same "the program ended by $sign" "$sign" "$(kill -l $?)"
    done
    rm -f -- "$room/one"
    mkdir "$room/of the caller"
    (PATH=$tools work="$room/of the caller" unfinished="$room/items" exec "$fresh/sqre" wait) >"$room/one" &
    one=$!
    wait_for "$room/one"
    kill -s TERM "$one"
    wait "$one" 2>/dev/null
    same 'TERM ends the script' 143 $?
    same 'TERM ends the program' 'begun
ended' "$(cat "$room/one")"
    holds 'it removes no folder that the caller calls so' [ -d "$room/of the caller" ]
    holds 'it removes no file that the caller calls so' [ -e "$room/items" ]
    same 'no words' 'status 2' "$(answer without_rt "$fresh/sqre")"
    has 'no words: usage' 'Usage: sqre' "$(cat "$room/errors")"
    has 'help' 'Usage: sqre' "$(without_rt "$fresh/sqre" --help)"
}

# What is told of the files that are installed in the folder $1.
told_of_install() {
    for name in sqre explain expand shard snapshot beside view hints; do
        echo "installed $1/sqre-programs/$name"
    done
    echo "installed $1/sqre-explain"
    for name in explanations remarks snapshots templates views; do
        echo "installed $1/sqre-programs/$name"
    done
    echo "installed $1/sqre"
}

test_install() {
    folder="$room/to install"
    mkdir -p "$folder"
    ln -s "$fresh/sqre" "$folder/sqre"
    cp "$fresh/sqre" "$room/kept"
    same 'install' "$(told_of_install "$folder")
status 0" "$(answer without_rt "$fresh/sqre" --install "$folder")"
    same 'what stands there' 'sqre sqre-explain sqre-programs' "$(cd "$folder" && echo ./* | sed 's|\./||g')"
    holds 'install over a link leaves the script' cmp -s "$room/kept" "$fresh/sqre"
    same 'install to the checkout' 'status 10' "$(cd "$fresh" && answer without_rt ./sqre --install .)"
    holds 'install to the checkout leaves the script' cmp -s "$room/kept" "$fresh/sqre"
    mkdir -p "$folder/two/sqre"
    same 'install where a folder has the name' 'status 10' "$(answer without_rt "$fresh/sqre" --install "$folder/two")"
    same 'nothing else is left there' 'sqre' "$(ls -A "$folder/two")"
}

# What is installed runs and explains as the checkout does, and can be installed again, without it.
test_installed() {
    version=$(without_rt "$fresh/sqre" --version)
    mv "$fresh" "$fresh.away"
    same 'what is installed' 'release' "$(without_rt "$folder/sqre" which)"
    same 'what is installed: a refusal' 'refused
status 1' "$(answer without_rt "$folder/sqre" check "$room/bad.sqre")"
    same 'what is installed: its explanation' "$room/bad.sqre is explained, release" "$(cat "$room/errors")"
    same 'what is installed: a query that is not there' 'status 3' "$(answer without_rt "$folder/sqre" exit 3)"
    has 'what is installed: its sentence' 'the query 3, which is not there, could not be read' "$(cat "$room/errors")"
    same 'what is installed: words that are not known' 'status 2' "$(answer without_rt "$folder/sqre" save)"
    has 'what is installed: their sentence' 'none of those that --help shows' "$(cat "$room/errors")"
    same 'what is installed: version' "$version" "$(without_rt "$folder/sqre" --version)"
    same 'what is installed by a link' 'release' "$(ln -s "$folder/sqre" "$room/linked" && without_rt "$room/linked" which)"
    same 'installed again' "$(told_of_install "$room/anew")
status 0" "$(answer without_rt "$folder/sqre" --install "$room/anew")"
    for name in sqre sqre-programs/explanations sqre-programs/remarks sqre-programs/snapshots sqre-programs/templates sqre-programs/views; do
        holds "what is installed again is the same: $name" cmp -s "$folder/$name" "$room/anew/$name"
    done
    same 'what is installed proves nothing' 'status 10' "$(answer without_rt "$folder/sqre" --prove)"
    has 'where programs are proved' 'in a checkout' "$(cat "$room/errors")"
    rm "$folder/sqre-programs/explain"
    same 'what is installed without the explanation' 'refused
status 1' "$(answer without_rt "$folder/sqre" check "$room/bad.sqre")"
    has 'the explanation is not there' 'is not there' "$(cat "$room/errors")"
    rm "$folder/sqre-programs/sqre"
    same 'what is installed without the program' 'status 10' "$(answer without_rt "$folder/sqre" which)"
    mv "$fresh.away" "$fresh"
}

make_room "$1"
test_release
test_other_sources
test_broken_release
test_read_only
test_ways_to_it
test_copy_alone
test_input_and_output
test_statuses
test_install
test_installed
tell
