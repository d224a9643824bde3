#!/usr/bin/env bash
# Runs `zk_shell live`, `zk_shell watch`, its commands that ask for one node and the examples `example_config_follower` and `example_conclusions`
# against real ZooKeeper servers: one alone, ensembles of three of which one stops, and one that is cut off for a while. What is printed is
# checked line by line, by tables of commands and of the lines that they lead to. All traffic stays on 127.0.0.1; servers and folders are gone at
# the end, however it ends.
#
# usage: trials/real_server.sh [ZK_SHELL CONFIG_FOLLOWER CONCLUSIONS_EXAMPLE]     the programs; without them, those that `rt ci` has left.
# The last line is `passed`, or `skipped: ..` where there is no server to be had. Else the exit status is 1.
set -euo pipefail
top=$(cd "$(dirname "$0")/.." && pwd)
source "$top/trials/servers.sh"
declare -A known=() seen=()

# A listener that holds the one connection that comes, until the file NAME.go is there, and then is gone. Its port is in NAME.port;
# NAME.held is there once the connection has come.
start_gate() {
    python3 - "$folder/$1" <<'EOF' &
import os, socket, sys, time

name = sys.argv[1]
listener = socket.socket()
listener.bind(("127.0.0.1", 0))
listener.listen()
listener.settimeout(120)
with open(name + ".new", "w") as port:
    port.write(str(listener.getsockname()[1]))
os.rename(name + ".new", name + ".port")
held, _ = listener.accept()
held.settimeout(10)
held.recv(4096)
open(name + ".held", "w").close()
for _ in range(1200):
    if os.path.exists(name + ".go"):
        break
    time.sleep(0.1)
held.close()
EOF
    gates+=($!)
    within 20 test -e "$folder/$1.port" || fail "no gate"
}

# Runs a session by the script on standard input; what it prints is in NAME.out, which is checked later.
session() {
    local name=$1 status=0
    shift
    timeout 180 "$program" live "$@" >"$folder/$name.out" 2>"$folder/$name.err" || status=$?
    [[ $status == 0 && ! -s $folder/$name.err ]] || fail "$name ends with $status: $(cat "$folder/$name.err")"
}

# Whether a word is as wanted: `@NAME` is a number and `%NAME` is hex, the same for the same name, and `@` is any number; `~` is seconds
# with milliseconds.
is_word() {
    case $1 in
    '~')
        [[ $2 =~ ^[0-9]+\.[0-9]{3}$ ]]
        return
        ;;
    @*) [[ $2 =~ ^-?[0-9]+$ ]] || return 1 ;;
    %*) [[ $2 =~ ^([0-9a-f]{2})+$ ]] || return 1 ;;
    *)
        [[ $1 == "$2" ]]
        return
        ;;
    esac
    [[ $1 == @ ]] && return
    [[ -v known[$1] ]] || known[$1]=$2
    [[ ${known[$1]} == "$2" ]]
}

is_line() {
    local -a want got
    local at
    read -ra want <<<"$1"
    read -ra got <<<"$2"
    [[ ${#want[@]} == "${#got[@]}" ]] || return 1
    for at in "${!want[@]}"; do
        is_word "${want[at]}" "${got[at]}" || return 1
    done
}

# The lines of a table of tests/real_server.txt, up to an empty one.
table() {
    awk -v head="@@ $1" '/^@@ / { is = $0 == head; next } !NF { is = 0 } is' "$top/tests/real_server.txt" | sed "s/{at}/${at-}/g; s/{port}/$port/g"
}

# Checks what a session printed against the lines of a table, that of its name if no other is named.
expect() {
    local -a want got
    local at
    mapfile -t want < <(table "${2-$1}")
    mapfile -t got <"$folder/$1.out"
    for at in "${!want[@]}"; do
        is_line "${want[at]}" "${got[at]-}" || fail "$1, line $((at + 1)): '${got[at]-}' where '${want[at]}' is wanted"
    done
    [[ ${#want[@]} == "${#got[@]}" ]] || fail "$1 prints more: '${got[${#want[@]}]}'"
    echo "$1: ${#got[@]} lines as wanted"
}

# Plays a table for NAME, that of its name if no other is named. `$ COMMAND` is run; each other line is the next one that NAME prints, which is
# waited for. `== NAME` says whose lines come next. A command knows NAME as $name.
play() {
    local name=$1 line
    while IFS= read -r line <&3; do
        case $line in
        '$ '*) eval "${line#??}" ;;
        '== '*) name=${line#???} ;;
        *) sees "$line" ;;
        esac
    done 3< <(table "${2-$1}") </dev/null
}

# Runs a command in the background. What it prints is in NAME.out; `sees` goes through it line by line.
begin() {
    seen[$name]=0
    : >"$folder/$name.out"
    "$@" >>"$folder/$name.out" 2>"$folder/$name.err" 3<&- &
    begun[$name]=$!
}

watch() {
    begin "$program" watch "$@"
}

has_line() {
    (($(wc -l <"$folder/$1.out") > seen[$1]))
}

# Waits for the next line, which may be this one, and sets `got` to it.
take_line() {
    within 40 has_line "$name" || fail "$name does not print '$1': $(cat "$folder/$name.err")"
    seen[$name]=$((seen[$name] + 1))
    got=$(sed -n "${seen[$name]}p" "$folder/$name.out")
}

sees() {
    local got
    take_line "$1"
    is_line "$1" "$got" || fail "$name, line ${seen[$name]}: '$got' where '$1' is wanted"
}

# The same of two lines in any order.
sees_both() {
    local got
    take_line "$1"
    if is_line "$1" "$got"; then
        sees "$2"
    else
        is_line "$2" "$got" || fail "$name, line ${seen[$name]}: '$got' where one of '$1' and '$2' is wanted"
        sees "$1"
    fi
}

# Checks that a watch dials an address, the only one if it is named, and that a server accepts its session.
connects() {
    within 40 has_line "$name" || fail "$name dials nothing: $(cat "$folder/$name.err")"
    local at=${1-$(sed -n "$((seen[$name] + 1))s/.* dial //p" "$folder/$name.out")}
    sees "~ dial $at"
    sees '~ state Connecting'
    sees "~ state Connected $at session @ timeout @"
}

# Begins a watch of the data of /NAME, which are `one`, with further words of the command, and checks what it prints at first.
watch_data() {
    watch "$@" --data "/$name"
    connects
    sees "~ /$name data full 6f6e65 @$name @$name @ @ 0 0 3 good last @"
}

# The port of the server that accepted the session of a watch last.
port_of() {
    sed -n 's/.* state Connected 127.0.0.1:\([0-9]*\) session .*/\1/p' "$folder/$1.out" | tail -n 1
}

# Checks that nothing further is printed.
quiet() {
    ! has_line "$name" || fail "$name prints more: '$(sed -n "$((seen[$name] + 1))p" "$folder/$name.out")'"
}

# Waits until it ends by itself, well, with nothing further printed.
ends() {
    local status=0
    wait "${begun[$name]}" || status=$?
    [[ $status == 0 && ! -s $folder/$name.err ]] || fail "$name ends with $status: $(cat "$folder/$name.err")"
    is_over
}

# Ends it.
stop() {
    kill "${begun[$name]}"
    wait "${begun[$name]}" 2>/dev/null || true
    is_over
}

is_over() {
    unset "begun[$name]"
    quiet
    echo "$name: ${seen[$name]} lines as wanted"
}

# Waits for a line that has this pattern, and passes over what is printed up to then, which is looked at as a whole.
prints() {
    within "${2-40}" grep -q -e "$1" "$folder/$name.out" || fail "$name prints nothing like '$1'"
    seen[$name]=$(wc -l <"$folder/$name.out")
}

# Checks that numbers of these names rise.
rises() {
    local last=$1
    shift
    while (($#)); do
        ((known[$last] < known[$1])) || fail "$1 is not above $last"
        last=$1
        shift
    done
}

# A command of ZooKeeper's own client at the server at $port.
other() {
    outside "$port" "$@"
}

# What others change while the gate holds the session.
change_at() {
    within 60 test -e "$folder/$1.held" || fail "the session does not come to the gate"
    other set /live three
    other delete /live/a
    other create /live/c c
    touch "$folder/$1.go"
}

# One session with every kind of call, with a cut during which others change what is watched.
run_calls() {
    local client
    start_gate hold
    session alone "$at" "127.0.0.1:$(cat "$folder/hold.port")" < <(table 'calls: script') &
    client=$!
    change_at hold
    wait "$client" || exit 1
    expect alone 'calls: lines'
    rises @create @two @refused @b @queue @full @gone @a @again @three @c @write @closed
    rises @three @later @write
}

# A session that another process takes up; a password that is wrong; and a server that is behind.
run_resumed() {
    printf 'call 1 create /live/e 65 1\nsaved\n' | session left "$at"
    expect left
    local saved="${known[@left]} ${known[%left]}"
    printf 'resume %s\n%s\n' "$saved 9000000000000000000" last | session ahead "$at"
    expect ahead
    printf 'resume %s\n%s\n' "$saved ${known[@e]}" $'saved\ncall 1 getdata /live/e 0\ncall 2 close' | session taken "$at"
    expect taken
    printf 'resume %s\n%s\n' "$saved ${known[@e]}" 'call 1 exists / 0' | session expired "$at"
    expect expired
}

# Runs a command that asks for one node, which has to end with this status; what it prints and tells comes to asks.out.
asks() {
    local status=0
    timeout 60 "$program" "${@:2}" >>"$folder/asks.out" 2>&1 || status=$?
    [[ $status == "$1" ]] || fail "zk_shell ${*:2} ends with $status where $1 is wanted: $(tail -n 1 "$folder/asks.out")"
}

# The lines of a session that may differ each time are those of a watch and those in JSON: their numbers are left out.
without_numbers() {
    sed -E '/^([0-9]+\.[0-9]{3} |\{)/s/[0-9]+/N/g' "$1"
}

# The session of an operator that the cookbook shows: each command after a `$` prints the lines that follow it there.
run_operator() {
    local line status=0
    sed -n '/^## An operator.s session/,/^- /p' "$top/docs/COOKBOOK.md" | sed -n '/^```sh$/,/^```$/p' | sed "1d;\$d;s/127\.0\.0\.1:2181/$at/g;s/localhost:2181/localhost:$port/g" >"$folder/page"
    zk_shell() { timeout 60 "$program" "$@"; }
    while IFS= read -r line; do
        [[ $line == '$ '* ]] || continue
        echo "$line"
        eval "(exit $status); ${line#??}" </dev/null && status=0 || status=$?
    done <"$folder/page" >"$folder/operator.out" 2>&1
    diff <(without_numbers "$folder/page") <(without_numbers "$folder/operator.out") || fail "the cookbook shows another session"
    echo "operator: $(wc -l <"$folder/page") lines as wanted"
}

# A watch of a host that no name server knows: this is told, and at its end that no server was ever connected.
run_unknown() {
    local status=0
    timeout 60 "$program" watch nobody.invalid --for 1 >"$folder/unknown.out" 2>"$folder/unknown.err" || status=$?
    [[ $status == 9 && ! -s $folder/unknown.err ]] || fail "a watch of an unknown host ends with $status"
    head -n 2 "$folder/unknown.out" >"$folder/nobody.out"
    expect nobody
}

# A watch whose standard output is closed: it ends at its next line, with the status of a write that failed.
run_closed() {
    other create /closes one
    (
        status=0
        timeout 60 "$program" watch "$at" --data /closes --timeout 10000 2>"$folder/closes.err" || status=$?
        echo "$status" >"$folder/closes.status"
    ) | sed 4q >"$folder/closes.out" &
    gates+=($!)
    within 20 test -s "$folder/closes.out" || fail "a watch does not print four lines"
    other set /closes two
    within 20 test -s "$folder/closes.status" || fail "a watch goes on after the end of its output"
    [[ $(cat "$folder/closes.status") == 4 ]] || fail "a watch whose output is closed ends with $(cat "$folder/closes.status")"
    echo "closes: status 4 as wanted"
}

# A tree that another client changes in 1,000 transactions: each line is a state of it, and later than the line before; and there are 100 lines at
# least.
run_grove() {
    play grove
    awk 'FNR == NR { states[$0] = ++count; next }
        FNR == 1 { next }
        { line = $0; sub(/^at [0-9]+/, "", line) }
        !(line in states) || $2 <= last || states[line] <= state { print "line " FNR ": " $0; wrong = 1; exit }
        { last = $2; state = states[line]; shown++ }
        END { print "grove: " shown " of " count " states shown"; exit wrong || shown < 100 }' \
        "$folder/grove.states" "$folder/grove.out" || fail "not each tree that is shown is a state of it, and later"
}

# A server stops while the gate holds the session; then others change what is watched, at another one.
stop_and_change() {
    local server=$1 other=$2
    within 60 test -e "$folder/$server.held" || fail "the session does not come to the gate"
    stop_server "$server"
    within 60 serves "$other" || fail "no server serves once one has stopped"
    outside "$other" set /live two
    outside "$other" set /live three
    outside "$other" create /live/c c
    touch "$folder/$server.go"
}

# An ensemble of three: the server of the session stops, and the session goes on at the next address that connects.
# The server that stops, whose session it is, has this mode: leader or follower.
run_ensemble() {
    local mode=$1 server='' number port first gate at
    local -a ports others=()
    read -ra ports < <(free_ports 9)
    known=()
    start_three "$mode" "${ports[@]}"
    for number in 1 2 3; do
        port=127.0.0.1:${ports[number - 1]}
        if [[ -z $server && $(mode_of "${port#*:}") == "$mode" ]]; then
            server=$mode-$number first=$port
        else
            others+=("$port")
        fi
    done
    [[ -n $server ]] || fail "no $mode"
    start_gate "$server"
    gate=127.0.0.1:$(cat "$folder/$server.port") at=$first
    session "$mode" "$first" "$gate" "$first" "${others[@]}" < <(table 'ensemble: script') &
    local client=$!
    stop_and_change "$server" "${others[0]#*:}"
    wait "$client" || exit 1
    expect "$mode" 'ensemble: lines'
    rises @create @three @c @four @closed
    rises @three @later @four
    stop_servers
}

# Which of these ports is the first one, counted from 1.
number_at() {
    local number port=$1
    shift
    for number in 1 2 3; do
        [[ ${!number} != "$port" ]] || echo "$number"
    done
}

# An ensemble of three. The server of a watch is stopped so that nothing tells: it is left once nothing was heard for two thirds of the
# timeout, and what was changed meanwhile is told by the next server. That one ends, and the third tells a further change.
run_stopped() {
    local name=stopped number port since first second
    local -a ports rest=()
    read -ra ports < <(free_ports 9)
    known=()
    start_three stopped "${ports[@]}"
    outside "${ports[0]}" create /stopped one
    watch_data "127.0.0.1:${ports[0]},127.0.0.1:${ports[1]},127.0.0.1:${ports[2]}" --timeout 30000
    first=$(port_of stopped)
    for port in "${ports[@]:0:3}"; do
        [[ $port == "$first" ]] || rest+=("$port")
    done
    port=${rest[1]}
    number=$(number_at "$first" "${ports[@]:0:3}")
    kill -STOP "${servers[stopped-$number]}"
    since=$SECONDS
    (within 40 has_line stopped && echo $((SECONDS - since)) >"$folder/stopped.left") &
    within 60 leads_one "${rest[@]}" || fail "no server leads once one is stopped"
    within 60 serves "$port" || fail "no server serves once one is stopped"
    other set /stopped two
    other set /stopped three
    sees "~ drop D1 127.0.0.1:$first nothing was heard for two thirds of the timeout"
    within 5 test -s "$folder/stopped.left"
    (($(cat "$folder/stopped.left") <= 22)) || fail "a silent server is left after $(cat "$folder/stopped.left") seconds"
    play stopped silent
    play "idle-$port" idle
    stop_servers
}

# Whether a watch that has left the server at this port is connected elsewhere. What it prints till then is passed over, failed attempts too.
is_back() {
    local at
    at=$(port_of "$1")
    [[ $at != "$2" ]] || return 1
    seen[$1]=$(grep -n " state Connected " "$folder/$1.out" | tail -n 1 | cut -d: -f1)
}

run_alone() {
    local port at name
    known=()
    serve_alone one
    at=127.0.0.1:$port
    run_calls
    run_resumed
    play asks
    run_operator
    for name in changes objects trees expires follow lock; do
        play $name
    done
    play "idle-$port" idle
    run_unknown
    run_closed
    run_grove
    stop_servers
}

install_server || {
    echo "skipped: the package zookeeper cannot be had"
    exit 0
}
crates=$top/crates
program=$(realpath -m "${1:-$crates/zk_shell/out/zk_shell}")
follower=$(realpath -m "${2:-$crates/example_config_follower/out/example_config_follower}")
conclusions=$(realpath -m "${3:-$crates/example_conclusions/out/example_conclusions}")
for one in "$program" "$follower" "$conclusions"; do
    [[ -x $one ]] || fail "$one is not there: run rt ci, or name the program"
done
run_alone
run_ensemble follower
run_ensemble leader
run_stopped
echo passed
