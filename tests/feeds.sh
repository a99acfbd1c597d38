#!/bin/sh
# Tests each command of docs/FEEDS.md with the real programs: that it writes what the page shows, or answers lines as they come.
here=$(readlink -f -- "$0") || exit 1
here=${here%/tests/*}
# shellcheck source=/dev/null
. "$here/tests/shared"

room=$(mktemp -d) || exit 1
begun=
broker=

# What was begun is a session of its own, with all that its pipe has.
end_begun() {
    [ -z "$begun" ] || kill -s TERM -- "-$begun" 2>/dev/null
    begun=
}

# shellcheck disable=SC2317  # a trap calls it
clean() {
    end_begun
    [ -z "$broker" ] || kill -s TERM "$broker" 2>/dev/null
    rm -rf -- "$room"
}
trap clean EXIT
trap 'exit 1' HUP INT TERM
cd "$room" || exit 1
ln -s "$here/sqre" sqre
ln -s "$here/examples" examples
PATH=$room/bin:$PATH:/usr/sbin
mkdir bin

# These commands are here; what lacks is reported once.
have() {
    for name in "$@"; do
        if ! command -v "$name" >/dev/null; then
            echo "not tested: $section, since $name is not here"
            return 1
        fi
    done
}

# The blocks of lines of the section $1, each in a file by its number.
cut_shown() {
    rm -f -- shown*
    section=$1
    section=$1 awk '
        /^##/ { is_inside = $0 == "## " ENVIRON["section"] || $0 == "### " ENVIRON["section"] }
        !is_inside { next }
        /^    / {
            if (!is_text) count++
            is_text = 1
            print substr($0, 5) >("shown" count)
            next
        }
        { is_text = 0 }' "$here/docs/FEEDS.md"
    holds "docs/FEEDS.md has commands: $section" [ -e shown1 ]
}

# The block $1 has commands that write the next block.
writes() {
    same "$section: $(head -n 1 "shown$1")" "$(cat "shown$(($1 + 1))")" "$(sh -e "shown$1" 2>&1 </dev/null)"
}

# Runs the commands of the block $1 for as long as lines come.
begin_shown() {
    : >"told$1"
    setsid sh "shown$1" >"told$1" 2>errors </dev/null &
    begun=$!
    shown=told$1
}

# A line of what they have written matches $1 within $2 tenths of a second.
has_soon() {
    waited=0
    until grep -q "$1" "$shown" || [ "$waited" -ge "$2" ]; do
        sleep 0.1
        waited=$((waited + 1))
    done
    holds "$section: $1" grep -q "$1" "$shown"
}

test_beside() {
    cut_shown 'Answers beside their lines'
    for number in 1 3 5 7; do
        writes "$number"
    done
}

test_plot() {
    cut_shown 'Plot it'
    have gnuplot || return
    sh -e shown1 2>errors </dev/null
    same 'the picture' 'PNG' "$(head -c 4 alarms.png | tail -c 3)"
    holds 'the picture has something in it' [ "$(wc -c <alarms.png)" -gt 2000 ]
    same 'gnuplot says nothing' '' "$(cat errors)"
}

test_jq_and_database() {
    cut_shown 'Into jq, into a database'
    if have jq; then
        writes 1
        writes 3
    fi
    if have sqlite3; then
        writes 5
    fi
}

test_log() {
    cut_shown 'A log that grows'
    echo 3 >pulses.log
    begin_shown 1
    has_soon '^3	3$' 50
    echo 4 >>pulses.log
    has_soon '^4	7$' 10
    # What looks for new logs looks once a second.
    mv pulses.log older.log
    echo 5 >pulses.log
    has_soon '^5	12$' 40
    end_begun
}

# A command stands in for journalctl, and writes two lines as it does.
test_journal() {
    cut_shown 'The journal of a machine'
    have jq || return
    cp shown1 errors.sqre
    cat >bin/journalctl <<'END_OF_STAND_IN'
#!/bin/sh
echo '{"__REALTIME_TIMESTAMP":"1764547201123456","_SYSTEMD_UNIT":"cron.service","PRIORITY":"6","MESSAGE":"a \"b\", c"}'
echo '{"__REALTIME_TIMESTAMP":"1764547202000000","_SYSTEMD_UNIT":"ssh.service","PRIORITY":"3","MESSAGE":"no"}'
END_OF_STAND_IN
    chmod +x bin/journalctl
    same 'lines of a journal' '1764547201,"cron.service","6"	{"cron.service":0}
1764547202,"ssh.service","3"	{"cron.service":0,"ssh.service":1}' "$(sh -e shown2 </dev/null)"
}

# The broker and its clients take a port of their own.
test_broker() {
    cut_shown 'A broker'
    have mosquitto mosquitto_sub mosquitto_pub || return
    cp shown1 warmest.sqre
    port=$((20000 + $$ % 10000))
    XDG_CONFIG_HOME=$room/settings
    export XDG_CONFIG_HOME
    mkdir settings
    for name in mosquitto_sub mosquitto_pub; do
        echo "-p $port" >"settings/$name"
    done
    mosquitto -p "$port" >broker.log 2>&1 &
    broker=$!
    waited=0
    until mosquitto_pub -t tried -n 2>/dev/null || [ "$waited" -ge 50 ]; do
        sleep 0.1
        waited=$((waited + 1))
    done
    begin_shown 2
    # What is kept by the broker is sent to whoever comes later.
    mosquitto_pub -r -t house/hall/celsius -m 19.5
    has_soon '"topic":"house/hall/celsius","celsius":19.5,"answer":{"house/hall/celsius":19.5}}$' 50
    mosquitto_pub -t house/lab/celsius -m -3
    has_soon '"topic":"house/lab/celsius","celsius":-3.0,"answer":{"house/hall/celsius":19.5,"house/lab/celsius":-3.0}}$' 10
    end_begun
    kill -s TERM "$broker"
    wait "$broker"
    broker=
}

test_columns() {
    cut_shown 'Another separator'
    have mlr || return
    cp shown1 stock.txt
    cp shown2 pieces.sqre
    writes 3
    cut_shown 'Times that are no numbers'
    head -n 2 shown1 >requests.txt
    begin_shown 2
    has_soon "^$(sed -n 2p shown3)\$" 50
    tail -n +3 shown1 >>requests.txt
    has_soon "^$(sed -n 4p shown3)\$" 20
    same 'lines with other times' "$(cat shown3)" "$(cat "$shown")"
    end_begun
}

test_beside
test_plot
test_jq_and_database
test_log
test_journal
test_broker
test_columns
tell
