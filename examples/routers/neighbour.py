#!/usr/bin/env python3
"""A BGP neighbour that stands in for a customer: python3 examples/routers/neighbour.py HOST PORT

AS 64501 connects from 127.0.0.2 to a router of AS 64500, and announces two routes of examples/table.mrt, of which it leaked the second: its path is
64501 64503 64530. It answers with KEEPALIVE, and ends where the router ends the session. It reads no routes, and knows ASes of four bytes."""
import ipaddress
import pathlib
import socket
import struct
import sys
import time

sys.path.insert(0, str(pathlib.Path(__file__).resolve().parent.parent))
from make_dumps import as_path, prefix_bytes  # noqa: E402

ASN, OWN, HOLD = 64501, "127.0.0.2", 90
ROUTES = [("198.51.100.0/24", [64501, 64510]), ("203.0.113.0/24", [64501, 64503, 64530])]
OPEN, UPDATE, NOTIFICATION, KEEPALIVE = 1, 2, 3, 4


def message(kind, body=b""):
    return b"\xff" * 16 + struct.pack(">HB", 19 + len(body), kind) + body


def opening():
    """IPv4 unicast, and ASes of four bytes (RFC 5492, 4760, 6793)."""
    capabilities = struct.pack(">BBHBB", 1, 4, 1, 0, 1) + struct.pack(">BBI", 65, 4, ASN)
    parameters = struct.pack(">BB", 2, len(capabilities)) + capabilities
    return message(OPEN, struct.pack(">BHH4sB", 4, ASN, HOLD, ipaddress.ip_address("192.0.2.1").packed, len(parameters)) + parameters)


def update(prefix, path):
    attributes = struct.pack(">BBBB", 0x40, 1, 1, 0) + as_path(path)
    attributes += struct.pack(">BBB", 0x40, 3, 4) + ipaddress.ip_address(OWN).packed
    return message(UPDATE, struct.pack(">HH", 0, len(attributes)) + attributes + prefix_bytes(prefix))


def connected(place):
    """A connection, as soon as somebody listens there."""
    for _ in range(300):
        try:
            return socket.create_connection(place, 10, (OWN, 0))
        except ConnectionRefusedError:
            time.sleep(0.1)
    sys.exit("neighbour.py: nobody listens there")


def main():
    with connected((sys.argv[1], int(sys.argv[2]))) as router:
        router.settimeout(HOLD)
        router.sendall(opening())
        heard = router.makefile("rb")
        begun = False
        while len(head := heard.read(19)) == 19:
            length, kind = struct.unpack(">HB", head[16:])
            heard.read(length - 19)
            if kind == NOTIFICATION:
                return
            if kind in (OPEN, KEEPALIVE):
                router.sendall(message(KEEPALIVE))
            if kind == KEEPALIVE and not begun:
                begun = True
                router.sendall(b"".join(update(*route) for route in ROUTES))


if __name__ == "__main__":
    main()
