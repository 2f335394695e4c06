# A group of nodes on loopback, for bash scripts that source it: `group=FOLDER; sited=PROGRAM; make_group 3`, then `start_node P`, `url P`,
# `kill_node P`, `end_group`. Record files, logs and process numbers lie in FOLDER.

# goes on as this script in a network of its own, where one may be made: no port is another's there, and no other's datagrams are counted: SCRIPT WORD..
alone() {
    if [ -n "${ALONE:-}" ]; then
        ip link set lo up
    elif unshare --map-root-user --net ip link set lo up 2> /dev/null; then
        ALONE=1 exec unshare --map-root-user --net "$@"
    fi
}

# a port that nobody has now, and that was not picked before: in a network of its own below those that the system gives to clients, of which one might
# have it while its node is down; and else one that the system picks
free_port() {
    local inode port
    while [ -n "${ALONE:-}" ]; do
        port=$((10000 + RANDOM % 20000))
        if grep -qi ":$(printf %04X "$port") " /proc/net/tcp /proc/net/udp || grep -qsx "$port" "$group/ports"; then continue; fi
        echo "$port" | tee -a "$group/ports"
        return
    done
    while :; do
        exec 9<> /dev/udp/127.0.0.1/9
        inode=$(readlink "/proc/$BASHPID/fd/9")
        inode=${inode#socket:[}
        port=$(awk -v inode="${inode%]}" '$10 == inode { split($2, local, ":"); print local[2] }' /proc/net/udp)
        exec 9>&-
        if grep -q ":$port " /proc/net/tcp; then continue; fi
        port=$((16#$port))
        grep -qsx "$port" "$group/ports" || break
    done
    echo "$port" | tee -a "$group/ports"
}

# addresses for so many nodes: N
make_group() {
    local p
    udp=()
    http=()
    for ((p = 1; p <= $1; p++)); do
        udp+=("127.0.0.1:$(free_port)")
        http+=("127.0.0.1:$(free_port)")
    done
}

url() { echo "http://${http[$1 - 1]}"; }

# where a node finds the nodes, itself among them: P
peers_of() { echo "${udp[@]}"; }

# from now on each of N nodes finds the others behind a bad or long network (relay.c), and node $plain, if that is
# set, reads and sends no packets: N SEED LOSS REPEAT DELAY [WAY]
start_relay() {
    local p q n=$1
    shift
    # node P sends to node Q by the port P.Q of the relay
    declare -gA by=()
    for ((p = 1; p <= n; p++)); do
        for ((q = 1; q <= n; q++)); do
            [ "$p" = "$q" ] || by[$p.$q]=$(free_port)
        done
    done
    peers_of() {
        local q
        for ((q = 1; q <= ${#udp[@]}; q++)); do
            if [ "$q" = "$1" ]; then echo "${udp[q - 1]}"; else echo "127.0.0.1:${by[$1.$q]}"; fi
        done
    }
    for p in "${!by[@]}"; do
        case .$p. in *".${plain:-none}."*) q=1 ;; *) q=0 ;; esac
        echo "${by[$p]} ${udp[${p#*.} - 1]##*:} $q"
    done > "$group/pairs"
    cc -O2 -o "$group/relay" tools/parts/relay.c
    "$group/relay" "$@" < "$group/pairs" > "$group/relayed" &
    relay=$!
}

# within ten seconds the network says that it is ready
is_relayed() {
    local k
    for ((k = 0; k < 100; k++)); do if grep -qs '^ready' "$group/relayed"; then return 0; fi; sleep 0.1; done
    return 1
}

# the number of a node's process: P
process() { cat "$group/$1.pid"; }

# is it there still, and not only unreaped: P
runs() { [ -e "$group/$1.pid" ] && kill -0 "$(process "$1")" 2> /dev/null && ! grep -qs '^State:[[:space:]]*Z' "/proc/$(process "$1")/status"; }

# what it said but its notes (docs/OPERATING.md): P
faults_of() {
    grep -vE '^(opened: |mute up to instance |no longer mute$|caught up to instance |no majority heard |a majority is heard |node [1-9] (not|is) heard |datagrams that are no message: |silent connections closed |all 64 connections wait |published release=|publishing instance=|figures instance=)' \
        "$group/$1.err" || true
}

# it is ready: P
is_ready() { grep -q "^node $1 ready" "$group/$1.out"; }

# runs a node over its record file: P [OPTION..]. The words of `under`, if there are any, stand before the program's.
under=()
run_node() {
    local p=$1
    shift
    : > "$group/$p.out"
    # shellcheck disable=SC2046,SC2086 # a word an option, and an address
    "${under[@]}" "$sited" --id "$p" --record "$group/$p.record" --http "${http[p - 1]}" --rounds 4294967295 "$@" ${options:-} $(peers_of "$p") \
        > "$group/$p.out" 2> "$group/$p.err" < /dev/null &
    echo $! > "$group/$p.pid"
}

# starts a node, whose record file is formatted where it is empty or absent, and waits until it is ready, for 30 or $ready_within seconds: P
start_node() {
    local p=$1 k
    run_node "$p" --format
    for ((k = 0; k < ${ready_within:-30} * 10; k++)); do
        is_ready "$p" && return
        runs "$p" || break
        sleep 0.1
    done
    echo "node $p: $(cat "$group/$p.err")" >&2
    return 1
}

# a process and all that it started: PID
tree() {
    local child
    echo "$1"
    for child in $(pgrep -P "$1"); do tree "$child"; done
}

# ends a node at once, as a crash of its machine does but for the disk: P
kill_node() {
    local pid
    pid=$(process "$1")
    # shellcheck disable=SC2046 # a word a process
    { kill -KILL $(tree "$pid") || true; wait "$pid" || true; } 2> /dev/null
    rm -f "$group/$1.pid"
}

# ends every node
end_group() {
    local p
    for ((p = 1; p <= ${#udp[@]}; p++)); do
        if [ -e "$group/$p.pid" ]; then kill_node "$p"; fi
    done
}
