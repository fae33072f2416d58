#!/usr/bin/env bash
# A router writes its table and its messages as MRT, and the program judges both. Run it in the repository's folder, as root, where BIRD or
# OpenBGPD is installed: examples/routers/dump.sh bird, or examples/routers/dump.sh bgpd. The router listens on 127.0.0.1, sets no route of the
# system, and ends with this script; its one neighbour is examples/routers/neighbour.py.
set -eu
kind=${1:-}
case $kind in
bird | bgpd) command -v "$kind" >/dev/null || { echo "$0: $kind isn't there" >&2; exit 1; } ;;
*) echo "usage: $0 bird|bgpd" >&2; exit 2 ;;
esac
port=$(python3 -c 'import socket; print(socket.create_server(("127.0.0.1", 0)).getsockname()[1])')
work=$(mktemp -d)
chmod 755 "$work"
router=
neighbour=
trap 'kill $neighbour $router 2>/dev/null || true; wait; rm -rf "$work"' EXIT

start_bird() {
    cat >"$work/bird.conf" <<END
router id 192.0.2.254;
log "$work/log" all;
mrtdump "$work/messages.mrt";
protocol device { }
protocol bgp customer {
	local 127.0.0.1 port $port as 64500;
	neighbor 127.0.0.2 as 64501;
	multihop; passive; strict bind;
	mrtdump { states, messages };
	ipv4 { import all; export none; };
}
END
    bird -f -c "$work/bird.conf" -s "$work/socket" -P "$work/pid" &
    router=$!
}
routes_bird() { birdc -s "$work/socket" show route count 2>/dev/null | grep -q '^2 of 2 routes'; }
table_bird() { birdc -s "$work/socket" "mrt dump table \"master4\" to \"$work/table.mrt\"" >/dev/null; }

start_bgpd() {
    # (its home, in which it locks itself up; the system's service makes it)
    mkdir -p "$(getent passwd _openbgpd _bgpd | head -n 1 | cut -d : -f 6)"
    cat >"$work/bgpd.conf" <<END
AS 64500
router-id 192.0.2.254
fib-update no
socket "$work/socket"
listen on 127.0.0.1 port $port
dump table-v2 "$work/table.mrt" 1
dump all in "$work/messages.mrt"
neighbor 127.0.0.2 {
	remote-as 64501
	local-address 127.0.0.1
	passive
	multihop 2
}
allow from any
END
    chmod 600 "$work/bgpd.conf"
    bgpd -d -f "$work/bgpd.conf" 2>"$work/log" &
    router=$!
}
routes_bgpd() { [ "$(bgpctl -s "$work/socket" show rib 2>/dev/null | grep -c ' 64501 ')" -eq 2 ]; }
# (it is written anew each second)
table_bgpd() { rm -f "$work/table.mrt"; }

# within SECONDS COMMAND..: tries until it succeeds
within() {
    local end=$((SECONDS + $1))
    shift
    until "$@"; do
        [ "$SECONDS" -le "$end" ] || { echo "$kind isn't ready:" >&2; cat "$work/log" >&2; return 1; }
        sleep 0.2
    done
}

# taken FILE: the program finds both routes in the dump, and nothing that is cut.
taken() {
    printf '%s\n' "open d $1" 'take d 100000000' summary | ./aspaview run 2>/dev/null | grep -q '^summary routes 2 .* refused 0$'
}

"start_$kind"
python3 -B "${0%/*}/neighbour.py" 127.0.0.1 "$port" &
neighbour=$!
within 30 "routes_$kind"
"table_$kind"
for dump in table messages; do
    within 30 taken "$work/$dump.mrt"
    echo "$dump:"
    printf '%s\n' 'aspa64 rpki examples/neighbours.base64' 'role 64501 customer' "open d $work/$dump.mrt" 'take d 100000000' details | ./aspaview run
done
