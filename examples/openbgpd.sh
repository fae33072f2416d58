#!/usr/bin/env bash
# OpenBGPD is a router of the program: it takes the table, and says how many customers it has. Run it in the repository's folder, as root, where
# OpenBGPD 8.8 is installed: examples/openbgpd.sh
set -eu
for program in bgpd bgpctl; do
    command -v "$program" >/dev/null || { echo "$0: $program isn't there; OpenBGPD has it" >&2; exit 1; }
done
port=8283
work=$(mktemp -d)
cache=
router=
trap 'kill $router $cache 2>/dev/null || true; rm -rf "$work"' EXIT

# A BGP speaker without a neighbour, whose one RPKI cache is the program. It speaks version 2 of the protocol where it is told to.
cat >"$work/bgpd.conf" <<END
AS 64496
router-id 192.0.2.254
fib-update no
socket "$work/bgpd.sock"
listen on 127.0.0.1 port $((port + 1))
rtr 127.0.0.1 {
	port $port
	min-version 2
}
END
chmod 600 "$work/bgpd.conf"

# The program serves one router, what a validator accepted and an assertion by hand.
./aspaview run >"$work/served" <<END &
aspa64 rpki examples/neighbours.base64
assert 64540 64541
serve 127.0.0.1:$port 7 1
END
cache=$!

# Wait until it listens; who connects to see that is a router.
until grep -q "0100007F:$(printf %04X "$port") 00000000:0000 0A" /proc/net/tcp; do sleep 0.1; done
bgpd -d -f "$work/bgpd.conf" 2>"$work/log" &
router=$!
for ((i = 0; i < 600; i++)); do
    if bgpctl -s "$work/bgpd.sock" show rtr 2>&1 | grep -q 'Session ID: 7 Serial #: 0'; then break; fi
    sleep 0.1
done
bgpctl -s "$work/bgpd.sock" show rtr | sed -nE 's/^ *(State|Version)/\1/p'
bgpctl -s "$work/bgpd.sock" show sets | awk '$1 == "ASPA" { print "customers", $6 }'

# Where the router ends, so does its connection, and then the script.
kill "$router"
wait "$router" || true
router=
wait "$cache"
cache=
cat "$work/served"
