#!/usr/bin/env bash
# Servers of ZooKeeper for scripts that try something against them, to be sourced once. All traffic stays on 127.0.0.1. What is started
# here, and the folder, are gone at the end of the shell that sources this, however it ends.
jars=/usr/share/java/zookeeper.jar:/usr/share/java/slf4j-simple.jar
folder=$(mktemp -d)
# The processes of servers and of other commands by their names, and those without a name; of the whole shell, where a function sources this.
declare -gA servers=() begun=()
gates=()

# Ends each process that was started here, by its number, and removes the folder.
clean() {
    trap - EXIT
    local process
    for process in ${servers[@]+"${servers[@]}"} ${gates[@]+"${gates[@]}"} ${begun[@]+"${begun[@]}"}; do
        kill -KILL "$process" 2>/dev/null || true
        wait "$process" 2>/dev/null || true
    done
    rm -rf "$folder"
}
trap clean EXIT
trap 'exit 1' INT TERM HUP

fail() {
    echo "failed: $*" >&2
    tail -n 5 "$folder"/*.log >&2 2>/dev/null || true
    exit 1
}

# Waits for up to this many seconds until a command succeeds.
within() {
    local end=$((SECONDS + $1))
    shift
    until "$@"; do
        ((SECONDS < end)) || return 1
        sleep 0.2
    done
}

has_server() {
    command -v java >/dev/null && [[ -e /usr/share/java/zookeeper.jar ]] && /usr/bin/python3 -c "import kazoo" 2>/dev/null
}

install_server() {
    has_server && return
    command -v apt-get >/dev/null || return 1
    export DEBIAN_FRONTEND=noninteractive
    timeout 300 apt-get update >"$folder/apt.log" 2>&1 || true
    timeout 900 apt-get install -y --no-install-recommends zookeeper default-jre-headless python3-kazoo >>"$folder/apt.log" 2>&1 || true
    has_server
}

# This many ports that nothing listens at.
free_ports() {
    python3 - "$1" <<'EOF'
import socket, sys

taken = [socket.socket() for _ in range(int(sys.argv[1]))]
for one in taken:
    one.bind(("127.0.0.1", 0))
print(*(one.getsockname()[1] for one in taken))
EOF
}

# Writes the settings of a server: its name, its number, its port, and the lines of its ensemble.
configure() {
    mkdir -p "$folder/$1"
    echo "$2" >"$folder/$1/myid"
    cat >"$folder/$1.cfg" <<EOF
tickTime=2000
initLimit=10
syncLimit=5
dataDir=$folder/$1
clientPort=$3
clientPortAddress=127.0.0.1
admin.enableServer=false
4lw.commands.whitelist=srvr,cons,wchs
extendedTypesEnabled=true
$4
EOF
}

start_server() {
    java -Xmx128m -Djava.net.preferIPv4Stack=true -Dzookeeper.jmx.log4j.disable=true -cp "$jars" \
        org.apache.zookeeper.server.quorum.QuorumPeerMain "$folder/$1.cfg" >"$folder/$1.log" 2>&1 &
    servers[$1]=$!
}

# Starts a server by itself under a name, with further settings, and sets `port` to its port.
serve_alone() {
    port=$(free_ports 1)
    configure "$1" 1 "$port" "${2-}"
    start_server "$1"
    within 60 serves "$port" || fail "the server does not serve"
}

stop_server() {
    kill "${servers[$1]}"
    within 20 is_gone "${servers[$1]}" || kill -KILL "${servers[$1]}"
    wait "${servers[$1]}" 2>/dev/null || true
    unset "servers[$1]"
}

stop_servers() {
    local name
    for name in "${!servers[@]}"; do
        stop_server "$name"
    done
}

is_gone() {
    ! kill -0 "$1" 2>/dev/null
}

# What the server at a port says of itself: standalone, leader or follower. It says nothing before it serves.
mode_of() {
    (exec 3<>"/dev/tcp/127.0.0.1/$1" && printf srvr >&3 && timeout 5 sed -n 's/^Mode: //p' <&3) 2>/dev/null
}

serves() {
    [[ -n $(mode_of "$1") ]]
}

# Whether one of the servers at these ports leads the others. Where a leader was stopped, the others serve for a while as if it were there.
leads_one() {
    local port
    for port in "$@"; do
        [[ $(mode_of "$port") != leader ]] || return 0
    done
    return 1
}

# A command of ZooKeeper's own client, at a port.
outside() {
    local port=$1
    shift
    timeout 60 java -Djava.net.preferIPv4Stack=true -cp "$jars" org.apache.zookeeper.ZooKeeperMain \
        -server "127.0.0.1:$port" "$@" >>"$folder/outside.log" 2>&1 || fail "ZooKeeper's own client: $*"
}

# Starts three servers of one ensemble; their names are NAME-1 to NAME-3.
start_three() {
    local name=$1 lines number
    shift
    local -a ports=("$@")
    lines=$(for number in 1 2 3; do
        echo "server.$number=127.0.0.1:${ports[number + 2]}:${ports[number + 5]}"
    done)
    for number in 1 2 3; do
        configure "$name-$number" "$number" "${ports[number - 1]}" "$lines"
        start_server "$name-$number"
    done
    for number in 1 2 3; do
        within 60 serves "${ports[number - 1]}" || fail "server $number does not serve"
    done
}
