#!/usr/bin/env python3
"""Writes the example of a recorded BMP stream (RFC 7854): router.bmp, beside this file.

It is what our router 192.0.2.254 in AS 64500 tells a collector of two sessions. 64501 says in its OPEN that it is our customer (RFC 9234);
64502 says no role. The router's inbound policy refuses one of the three routes that they send, so two stand behind it. In the end the session
with 64502 goes down. The numbers and addresses are those of make_dumps.py."""
import ipaddress
import struct

from make_dumps import HERE, TIME, as_path, prefix_bytes

# flags of a per-peer header: none before the inbound policy, and this one behind it
PRE, POST = 0x00, 0x40

ROUTER = "192.0.2.254"
CUSTOMER = ("192.0.2.1", 64501)
PEER = ("192.0.2.2", 64502)


def message(kind, body):
    return struct.pack(">BIB", 3, 6 + len(body), kind) + body


def of_peer(kind, peer, flags, rest):
    address, asn = peer
    packed = ipaddress.ip_address(address).packed
    header = struct.pack(">BBQ12s4sI4sII", 0, flags, 0, b"", packed, asn, packed, TIME, 0)
    return message(kind, header + rest)


def bgp(kind, body):
    return b"\xff" * 16 + struct.pack(">HB", 19 + len(body), kind) + body


def opening(asn, address, role=None):
    capabilities = b"" if role is None else struct.pack(">BBB", 9, 1, role)
    parameters = struct.pack(">BB", 2, len(capabilities)) + capabilities if capabilities else b""
    fields = struct.pack(">BHH4s", 4, asn, 180, ipaddress.ip_address(address).packed)
    return bgp(1, fields + bytes([len(parameters)]) + parameters)


def up(peer, role=None):
    address, asn = peer
    local = struct.pack(">12s4sHH", b"", ipaddress.ip_address(ROUTER).packed, 179, 50_000)
    return of_peer(3, peer, PRE, local + opening(64500, ROUTER) + opening(asn, address, role))


def down(peer):
    return of_peer(2, peer, PRE, bytes([4]))


def announced(peer, flags, prefix, path):
    attributes, last = as_path(path), prefix_bytes(prefix)
    if ":" in prefix:
        reach = struct.pack(">HBB", 2, 1, 16) + ipaddress.ip_address("2001:db8::2").packed + b"\0" + last
        attributes, last = attributes + struct.pack(">BBB", 0x80, 14, len(reach)) + reach, b""
    return of_peer(0, peer, flags, bgp(2, struct.pack(">HH", 0, len(attributes)) + attributes + last))


def main():
    stream = [
        message(4, struct.pack(">HH", 2, 6) + b"router"),
        up(CUSTOMER, role=3),
        up(PEER),
        announced(CUSTOMER, PRE, "198.51.100.0/24", [64501, 64510]),
        announced(CUSTOMER, POST, "198.51.100.0/24", [64501, 64510]),
        announced(CUSTOMER, PRE, "203.0.113.0/24", [64501, 64503, 64530]),
        announced(PEER, PRE, "2001:db8:20::/48", [64502, 64520]),
        announced(PEER, POST, "2001:db8:20::/48", [64502, 64520]),
        down(PEER),
    ]
    (HERE / "router.bmp").write_bytes(b"".join(stream))


if __name__ == "__main__":
    main()
