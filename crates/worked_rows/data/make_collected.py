#!/usr/bin/env python3
"""Writes a table and updates as a collector records them, and the answer of a cache, beside this file.

Peer p of 40 is 10.0.0.(p + 1) in AS 100 + p. Prefix n is 11.x.y.0/24 or 2001:db8:xy::/48, with n in x and y."""
import pathlib
import struct

HERE = pathlib.Path(__file__).parent
COLLECTOR = bytes([192, 0, 2, 254])
MARKER = b"\xff" * 16
MRT = {"table": (13, 1), "ipv4": (13, 2), "ipv6": (13, 4), "message": (16, 4), "state": (16, 5)}


def u16(n):
    return struct.pack(">H", n)


def u32(n):
    return struct.pack(">I", n)


def counted(data):
    return u16(len(data)) + data


def record(kind, body):
    return u32(0) + u16(MRT[kind][0]) + u16(MRT[kind][1]) + u32(len(body)) + body


def peer_address(peer):
    return u32(0x0A000001 + peer % 40)


def peer_as(peer):
    return u32(100 + peer % 40)


def prefix(is_six, n):
    return (b"\x30\x20\x01\x0d\xb8" if is_six else b"\x18\x0b") + u16(n)


def path(peer, middle, first):
    """An ORIGIN, and an AS_PATH of a peer's AS, an AS in the middle, and the first AS."""
    return b"\x40\x01\x01\x00\x40\x02\x0e\x02\x03" + peer_as(peer) + u32(1000 + middle % 300) + u32(2000 + first % 500)


def table():
    """A table of 40 peers, and 2,000 records of the prefixes with these numbers, the even ones of IPv4. Peers 10 apart have each."""
    peers = b"".join(b"\x02" + peer_address(p) + peer_address(p) + peer_as(p) for p in range(40))
    out = record("table", COLLECTOR + u16(0) + u16(40) + peers)
    for n in range(2000):
        routes = b"".join(
            u16(peer) + u32(0) + counted(path(peer, n, n)) for peer in (n % 10 + 10 * tens for tens in range(4))
        )
        out += record("ipv6" if n % 2 else "ipv4", u32(n) + prefix(n % 2 == 1, n) + u16(4) + routes)
    return out


def head(peer):
    return peer_as(peer) + u32(64511) + u16(1) + u16(1) + peer_address(peer) + COLLECTOR


def message(peer, kind, rest):
    return record("message", head(peer) + MARKER + u16(19 + len(rest)) + bytes([kind]) + rest)


def changes(peer, withdrawn=b"", attributes=b"", announced=b""):
    return message(peer, 2, counted(withdrawn) + counted(attributes) + announced)


def announcement(u, n, middle):
    return changes(u, attributes=path(u, middle, u), announced=prefix(False, n))


def announcement_of_six(u):
    """An MP_REACH of 28 bytes, with the next hop 2001:db8::1."""
    reach = b"\x80\x0e\x1c\x00\x02\x01\x10\x20\x01\x0d\xb8" + bytes(11) + b"\x01\x00" + prefix(True, 2000 + u % 500)
    return changes(u, attributes=path(u, u, u) + reach)


def update(u):
    """Of each ten: one that says nothing, two that announce a new IPv6 prefix, two a new IPv4 prefix, and two a known one with another
    path, and three that withdraw a prefix. Number 250 ends its peer's session, from Established to Idle."""
    if u == 250:
        return record("state", head(u) + b"\x00\x06\x00\x01")
    last = u % 10
    if last == 0:
        return message(u, 4, b"")
    if last in (2, 4):
        return changes(u, withdrawn=prefix(False, u))
    if last == 9:
        return changes(u, attributes=b"\x80\x0f\x0a\x00\x02\x01" + prefix(True, u))
    if last in (6, 8):
        return announcement(u, u % 500, u % 500 + 1)
    if last in (1, 3):
        return announcement_of_six(u)
    return announcement(u, 2000 + u % 500, u % 500)


def customer(c):
    """Each has two providers: one that some routes go on to, and one that is in none."""
    if c < 200:
        numbers = (2000 + c, 1000 + c)
    else:
        numbers = (1000 + (c - 200) % 100, 100 + c % 40)
    return b"\x02\x0b\x01\x00\x00\x00\x00\x14" + b"".join(u32(n) for n in numbers + (5000 + c % 7,))


def answer():
    """An answer that announces 300 customers, with prefixes among them: 200 ASes that routes begin in, and 100 in the middle."""
    ipv4 = b"\x02\x04\x00\x00\x00\x00\x00\x14\x01\x18\x18\x00\xc6\x33\x64\x00\x00\x00\xfb\xf4"
    ipv6 = b"\x02\x06\x00\x00\x00\x00\x00\x20\x01\x20\x20\x00\x20\x01\x0d\xb8" + bytes(12) + b"\x00\x00\xfb\xf4"
    out = b"\x02\x03\x00\x07\x00\x00\x00\x08"
    for c in range(300):
        out += customer(c) + (ipv4 + ipv6 if c % 10 == 0 else b"")
    return out + b"\x02\x07\x00\x07\x00\x00\x00\x18" + u32(1) + u32(3600) + u32(600) + u32(7200)


(HERE / "collected_table.mrt").write_bytes(table())
(HERE / "collected_updates.mrt").write_bytes(b"".join(update(u) for u in range(500)))
(HERE / "collected_answer.pdus").write_bytes(answer())
