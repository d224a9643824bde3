# The parts of scripts/clients that try many sessions at once, for that script, which sources this: through outages that are shorter than the
# timeout of a session, on an ensemble whose servers are killed, at a server that is away for longer than that, and beside one that hangs back.

# Ends a server at once: it has no time to say or to write anything.
kill_server() {
    kill -KILL "${servers[$1]}"
    wait "${servers[$1]}" 2>/dev/null || true
    unset "servers[$1]"
}

# This moment, in seconds of the system's clock.
moment() {
    date +%s.%3N
}

# Waits for up to 60 seconds until each of the servers at these ports serves, and prints the moment from which on all do. It is told some 20
# milliseconds late.
serve_since() {
    python3 - "$@" <<'EOF'
import socket, sys, time


def serves(port):
    try:
        with socket.create_connection(("127.0.0.1", port), 2) as asked:
            asked.sendall(b"srvr")
            return b"Mode: " in asked.makefile("rb").read()
    except OSError:
        return False


end = time.monotonic() + 60
while not all(serves(int(port)) for port in sys.argv[1:]):
    if time.monotonic() > end:
        sys.exit(1)
    time.sleep(0.02)
print(f"{time.time():.3f}")
EOF
}

# This many ways to the server at a port, by a name; each is at this port, or at a free one. Their ports are in NAME.port. While the file NAME.hold is
# there, they pass nothing on and end nothing, as where a cable is out. Where NAME.close is there, each is closed for as many seconds as that
# says, right after its client has sent something; and then the file is gone.
start_ways() {
    python3 clients/crowd/ways.py "$folder/$1" "${@:2}" &
    begun[$1]=$!
    within 20 test -e "$folder/$1.port" || fail "no way $1"
}

# Six ways to the server at a port, the doors.
start_doors() {
    start_ways doors "$1" 6 0
}

# A way from a port to another one, by a name.
start_way() {
    start_ways "$1" "$3" 1 "$2"
}

# The sessions of ten seconds that have connections to the server at a port.
sessions_at() {
    (exec 3<>"/dev/tcp/127.0.0.1/$1" && printf cons >&3 && timeout 5 sed -n '/,to=10000,/s/.*,sid=\([^,]*\),.*/\1/p' <&3 | sort) 2>/dev/null
}

has_six_sessions() {
    [[ $(sessions_at "$1" | wc -l) == 6 ]]
}

doors_are_open() {
    [[ ! -e $folder/doors.close ]]
}

# Sets the command that follows a node by the client of a language, and builds what it runs.
set_follower() {
    case $1 in
    c)
        needs "${compiler[0]}" make
        bounded 60 make -C clients/c
        follower=(clients/c/out/follow)
        ;;
    rust)
        needs cargo
        bounded 120 cargo build "${rust[@]}" --example follow
        follower=(cargo run --quiet "${rust[@]}" --example follow --)
        ;;
    python)
        needs python3
        follower=(python3 clients/python/examples/follow.py)
        ;;
    esac
}

all_print() {
    local number
    for number in 1 2 3 4 5 6; do
        grep -qw "$1" "$folder/printed$number.log" || return 1
    done
}

# Six followers with sessions of ten seconds live through an outage of this many seconds, which begins when the server has just heard them.
try_outage() {
    local port=$1 seconds=$2 before
    before=$(sessions_at "$port")
    echo "$seconds" >"$folder/doors.new"
    mv "$folder/doors.new" "$folder/doors.close"
    within 30 doors_are_open || fail "the doors stay closed"
    outside "$port" set /follow "after-$seconds"
    within 30 all_print "after-$seconds" || fail "a follower does not print 'after-$seconds'"
    [[ $(sessions_at "$port") == "$before" ]] || fail "an outage of $seconds seconds has lost a session"
}

try_outages() {
    local port number seconds
    local -a doors
    have_servers
    set_follower "$1"
    serve_alone one
    outside "$port" create /follow begin
    start_doors "$port"
    read -ra doors <"$folder/doors.port"
    for number in 1 2 3 4 5 6; do
        "${follower[@]}" "127.0.0.1:${doors[number - 1]}" /follow >"$folder/printed$number.log" 2>"$folder/said$number.log" &
        begun[follower$number]=$!
    done
    within 40 has_six_sessions "$port" || fail "six followers have no six sessions of ten seconds"
    for seconds in 6.6 7.5 9.0; do
        try_outage "$port" "$seconds"
    done
}

# Sets the command that opens many sessions by the client of a language, and builds what it runs.
set_crowd() {
    case $1 in
    c)
        compile crowd clients/crowd/crowd.c
        crowd=("$out/crowd")
        ;;
    rust)
        needs cargo
        bounded 120 cargo build "${rust[@]}" --example crowd
        crowd=("${CARGO_TARGET_DIR:-clients/rust/target}/debug/examples/crowd")
        ;;
    python)
        needs python3
        crowd=(python3 clients/crowd/crowd.py)
        ;;
    esac
}

# Opens this many sessions of ten seconds at these hosts, each of which follows the node /follow. What they print is in crowd.log.
begin_crowd() {
    "${crowd[@]}" "$1" "$2" /follow >"$folder/crowd.log" 2>"$folder/said.log" &
    begun[crowd]=$!
}

end_crowd() {
    kill "${begun[crowd]}" || fail "the crowd has ended already"
    wait "${begun[crowd]}" 2>/dev/null || true
    unset "begun[crowd]"
}

# Whether this many clients have printed these data.
have_shown() {
    [[ $(awk -v data="$2" '$3 == "data" && $4 == data { print $2 }' "$folder/crowd.log" | sort -u | wc -l) == "$1" ]]
}

# The sessions at all of these ports, and whether there are this many.
sessions_at_all() {
    local port
    for port in "$@"; do
        sessions_at "$port"
    done
}

have_sessions() {
    local count=$1
    shift
    [[ $(sessions_at_all "$@" | wc -l) == "$count" ]]
}

# Where 50 clients go whose order of servers is random differs at random: in half of all lots one of three servers has more than a
# fifth more or less than a third. So 20 lots are counted together, which are beyond that in one of 40,000 trials. The last one stays.
count_lots() {
    local lot at
    local -a counts=(0 0 0) found
    for lot in {1..20}; do
        begin_crowd "$(printf ',127.0.0.1:%s' "$@" | cut -c 2-)" 50
        within 60 have_sessions 50 "$@" || fail "50 clients have no 50 sessions"
        within 60 have_shown 50 0 || fail "50 clients are not shown the node"
        for at in 0 1 2; do
            found[at]=$(sessions_at "${@:at + 1:1}" | wc -l)
            counts[at]=$((counts[at] + found[at]))
        done
        echo "lot $lot: ${found[*]}"
        ((lot == 20)) || end_crowd
    done
    clients/crowd/figures spread "${counts[@]}" || fail "they are not within a fifth of even"
}

# A follower is killed, which has the sessions that are named: each of them has to be connected within a second, the longest pause while a
# session of ten seconds may live. Half a second more is for the dial and for the word of the server.
lose_follower() {
    local server=$1 port=$2 since
    local -a held
    mapfile -t held < <(sessions_at "$port")
    since=$(moment)
    kill_server "$server"
    sleep 5
    echo "a follower is killed:"
    clients/crowd/figures back "$folder/crowd.log" "$since" "$since" 1.5 "${held[@]}" || fail "sessions of a server that was killed"
}

# The leader is killed: its server is named, its port, and those of the others. All sessions are cut off, and nobody serves before there is
# another leader. The first dial after that may be to the server that is gone, so it takes a pause more.
lose_leader() {
    local server=$1 since struck
    local -a held
    shift
    mapfile -t held < <(sessions_at_all "$@")
    struck=$(moment)
    kill_server "$server"
    shift
    since=$(serve_since "$@") || fail "no server serves after the leader was killed"
    sleep 15
    echo "the leader is killed, and both others serve again after $(awk "BEGIN { print $since - $struck }") seconds:"
    clients/crowd/figures back "$folder/crowd.log" "$struck" "$since" 2.5 "${held[@]}" || fail "sessions of an ensemble whose leader was killed"
}

# An ensemble, and 50 clients at a time: how many sit on each server, and when they are back.
try_crowd() {
    local -a ports
    local leader follower
    have_servers
    set_crowd "$1"
    read -ra ports < <(free_ports 9)
    start_three three "${ports[@]}"
    outside "${ports[0]}" create /follow 0
    count_lots "${ports[@]:0:3}"
    for leader in 0 1 2; do
        if [[ $(mode_of "${ports[leader]}") == leader ]]; then
            break
        fi
    done
    follower=$(((leader + 1) % 3))
    lose_follower "three-$((follower + 1))" "${ports[follower]}"
    start_server "three-$((follower + 1))"
    within 60 serves "${ports[follower]}" || fail "the follower does not serve again"
    lose_leader "three-$((leader + 1))" "${ports[leader]}" "${ports[follower]}" "${ports[(leader + 2) % 3]}"
    end_crowd
}

# The server is killed, and is there again after 30 seconds, with its sessions: 50 of ten seconds have to be connected within two seconds,
# except those whose connections the server has left open, without a word, as it began.
try_long_outage() {
    local port since struck left
    local -a held
    have_servers
    set_crowd "$1"
    serve_alone one
    outside "$port" create /follow 0
    begin_crowd "127.0.0.1:$port" 50
    within 60 have_shown 50 0 || fail "50 clients are not shown the node"
    mapfile -t held < <(sessions_at "$port")
    struck=$(moment)
    kill_server one
    sleep 30
    start_server one
    since=$(serve_since "$port") || fail "the server does not serve again"
    sleep 15
    left=$(grep -c 'removeCnxn.* "this.zkDb" is null' "$folder/one.log" || true)
    echo "the server serves again after $(awk "BEGIN { print $since - $struck }") seconds, and has left $left connections without a word:"
    clients/crowd/figures back --but "$left" "$folder/crowd.log" "$struck" "$since" 2 "${held[@]}" || fail "sessions after an outage of 30 seconds"
    outside "$port" set /follow 1
    within 30 have_shown 50 1 || fail "50 clients are not shown what has changed"
    end_crowd
}

# Three servers, of which the third has a way to the leader that can be cut.
start_lagging_servers() {
    local lines="localSessionsEnabled=true
syncLimit=60
server.1=127.0.0.1:${ports[3]}:${ports[6]}
server.2=127.0.0.1:${ports[4]}:${ports[7]}
server.3=127.0.0.1:${ports[5]}:${ports[8]}"
    configure one 1 "${ports[0]}" "$lines"
    configure two 2 "${ports[1]}" "$lines"
    configure three 3 "${ports[2]}" "${lines/:${ports[4]}:/:${ports[9]}:}"
    start_server one
    start_server two
    within 60 serves "${ports[1]}" || fail "two servers do not serve"
    start_way leader "${ports[9]}" "${ports[4]}"
    start_server three
    within 60 serves "${ports[2]}" || fail "the third server does not serve"
    [[ $(mode_of "${ports[1]}") == leader ]] || fail "the second server does not lead"
}

# The third server is cut off from the leader, and hangs back without knowing. Sessions are of the server that began them alone, so if that is
# killed, the leader says that they have expired, and the server that hangs back begins another one for whoever has seen nothing. It has to begin
# none for who has.
try_lagging_follower() {
    local -a ports held
    local since refused
    have_servers
    set_crowd "$1"
    read -ra ports < <(free_ports 11)
    start_lagging_servers
    outside "${ports[0]}" create /follow 1
    begin_crowd "127.0.0.1:${ports[0]},127.0.0.1:${ports[1]},127.0.0.1:${ports[10]}" 20
    within 60 have_shown 20 1 || fail "20 clients are not shown the node"
    touch "$folder/leader.hold"
    outside "${ports[1]}" set /follow 2
    within 60 have_shown 20 2 || fail "20 clients are not shown what has changed"
    outside "${ports[2]}" get /follow
    grep -qx 1 "$folder/outside.log" || fail "the third server does not serve whoever has seen nothing, or does not hang back"
    start_way behind "${ports[10]}" "${ports[2]}"
    mapfile -t held < <(sessions_at "${ports[0]}")
    since=$(moment)
    kill_server one
    within 60 have_sessions 20 "${ports[1]}" || fail "20 clients have no 20 sessions at the leader"
    clients/crowd/figures renewed "$folder/crowd.log" "$since" "${held[@]}" || fail "sessions beside a server that is behind"
    refused=$(grep -c 'Refusing session request .* has seen zxid' "$folder/three.log" || true)
    echo "the server that is behind has refused $refused attempts, and has $(sessions_at "${ports[2]}" | wc -l) sessions of theirs"
    ((refused >= ${#held[@]})) || fail "not each of them has tried the server that is behind"
    [[ -z $(sessions_at "${ports[2]}") ]] || fail "a server that is behind has admitted a session"
    rm "$folder/leader.hold"
    outside "${ports[1]}" set /follow 3
    within 60 have_shown 20 3 || fail "20 clients are not shown what has changed"
    end_crowd
}

# Contenders that work through faults for ten minutes, or for as many as DIRWOLLEU_MINUTES says, with figures in clients/out. All of the server is in
# its logs.
try_contenders_at_work() {
    local port figures=$out/contenders.txt
    local -a contenders
    have_servers
    needs /usr/bin/python3
    set_contenders
    serve_alone one tickTime=500
    bounded 300 /usr/bin/python3 clients/cases/working.py "${DIRWOLLEU_MINUTES:-10}" "$folder/one" "127.0.0.1:$port" "${contenders[@]}" >"$figures" ||
        fail "contenders at work: $(<"$figures")"
}

# By hand alone.
((${#wanted[@]} == 0)) || part "contenders at work" try_contenders_at_work
