#!/usr/bin/env python3
"""Writes the example dumps and their attestations: neighbours.base64, table.mrt, updates.mrt, own.mrt, paths.mrt, otc.mrt and leaked.mrt, beside
this file.

We are AS 64500. Our customer is 64501, our peer 64502, our provider 64503; each has one router that speaks with our collector. own.mrt is a
table of our own router 192.0.2.254, which speaks with 64501 and, inside our AS, with our router 192.0.2.9. paths.mrt is a table with path
identifiers (RFC 8050), and one update behind it: 64503 sends us all paths that it has to a prefix (RFC 7911). otc.mrt is a table of routes
with the attribute Only-to-Customer (RFC 9234). leaked.mrt is a table in which some routes were leaked, near us and far away.
The numbers and addresses are those that are kept for documentation (RFC 5398, RFC 5737, RFC 3849)."""
import base64
import ipaddress
import pathlib
import struct

from json_to_aspa64 import payload

HERE = pathlib.Path(__file__).parent
TIME = 1_735_689_600

PEERS = [("192.0.2.1", 64501), ("192.0.2.2", 64502), ("192.0.2.3", 64503)]
OWN_PEERS = [("192.0.2.1", 64501), ("192.0.2.9", 64500)]

# customer: providers; 0 says that there is none
ATTESTED = {64501: [64500, 64503], 64502: [0], 64503: [0], 64510: [64501], 64520: [64502], 64530: [64503]}

# prefix: (index of the peer, path, neighbour first)
TABLE = [
    ("198.51.100.0/24", [(0, [64501, 64510]), (2, [64503, 64501, 64510])]),
    ("203.0.113.0/24", [(0, [64501, 64503, 64530]), (2, [64503, 64530])]),
    ("2001:db8:20::/48", [(1, [64502, 64520])]),
    ("2001:db8:40::/48", [(2, [64503, 64541, 64540])]),
]

# the same; ASes in braces are an AS_SET, and what our routers tell each other doesn't begin with our AS
OWN_TABLE = [
    ("192.0.2.0/24", [(1, [])]),
    ("198.51.100.0/24", [(0, [64501, 64510]), (1, [64502, 64510])]),
    ("203.0.113.0/24", [(0, [64501, 64503, 64530])]),
    ("2001:db8:10::/48", [(0, [64501, {64510, 64511}])]),
]

# the same, with a path identifier behind each path
PATHS = [("203.0.113.0/24", [(0, [64501, 64503, 64530], 1), (2, [64503, 64530], 1), (2, [64503, 64502, 64530], 2)])]

# the same, without one, and with the content of Only-to-Customer: an AS, or bytes that are none
OTC_TABLE = [
    ("198.51.100.0/24", [(0, [64501, 64510], None, 64510), (2, [64503, 64501, 64510], None, 64503)]),
    ("203.0.113.0/24", [(0, [64501, 64503, 64530], None, 64503), (1, [64502, 64503, 64530])]),
    ("2001:db8:20::/48", [(1, [64502, 64520], None, 64502)]),
    ("2001:db8:40::/48", [(0, [64501, 64541, 64540], None, 64541)]),
    ("2001:db8:50::/48", [(1, [64502, 64520], None, b"\xfb\xf6")]),
]

# the same as in the first one: 64501 passes on to us what it has from its provider 64503; 64540 to 64503 what it has from 64502; and 64540 or
# 64541, which attest nothing, to 64502 what 64540 has from 64503
LEAKED_TABLE = [
    ("198.51.100.0/24", [(0, [64501, 64510]), (2, [64503, 64501, 64510])]),
    ("203.0.113.0/25", [(0, [64501, 64503, 64530]), (2, [64503, 64530])]),
    ("203.0.113.128/25", [(0, [64501, 64503, 64530]), (2, [64503, 64530])]),
    ("2001:db8:20::/48", [(1, [64502, 64520]), (2, [64503, 64540, 64502, 64520])]),
    ("2001:db8:30::/48", [(0, [64501, 64503])]),
    ("2001:db8:40::/48", [(1, [64502, 64541, 64540, 64503, 64530])]),
]


def identifier(path):
    return b"" if path is None else struct.pack(">I", path)


def prefix_bytes(text):
    net = ipaddress.ip_network(text)
    return bytes([net.prefixlen]) + net.network_address.packed[: (net.prefixlen + 7) // 8]


def segment(kind, ases):
    return struct.pack(f">BB{len(ases)}I", kind, len(ases), *sorted(ases) if kind == 1 else ases)


def as_path(path):
    sequence = [a for a in path if isinstance(a, int)]
    segments = segment(2, sequence) if sequence else b""
    for ases in path[len(sequence):]:
        segments += segment(1, ases)
    return struct.pack(">BBB", 0x40, 2, len(segments)) + segments


def only_to_customer(otc):
    content = struct.pack(">I", otc) if isinstance(otc, int) else otc
    return b"" if content is None else struct.pack(">BBB", 0xC0, 35, len(content)) + content


def record(kind, subkind, body, time=TIME):
    return struct.pack(">IHHI", time, kind, subkind, len(body)) + body


def peer_table(peers):
    body = ipaddress.ip_address("192.0.2.254").packed + struct.pack(">HH", 0, len(peers))
    for address, asn in peers:
        packed = ipaddress.ip_address(address).packed
        body += struct.pack(">B4s4sI", 2, packed, packed, asn)
    return record(13, 1, body)


def rib(sequence, prefix, entries):
    body = struct.pack(">I", sequence) + prefix_bytes(prefix) + struct.pack(">H", len(entries))
    six, with_paths = ":" in prefix, any(len(entry) == 3 for entry in entries)
    for peer, path, *more in entries:
        number, otc = (*more, None, None)[:2]
        attributes = struct.pack(">BBBB", 0x40, 1, 1, 0) + as_path(path) + only_to_customer(otc)
        body += struct.pack(">HI", peer, TIME) + identifier(number) + struct.pack(">H", len(attributes)) + attributes
    return record(13, (10 if six else 8) if with_paths else (4 if six else 2), body)


def table(peers, routes):
    return peer_table(peers) + b"".join(rib(i, prefix, entries) for i, (prefix, entries) in enumerate(routes))


def update(time, peer, withdrawn, attributes, announced, path=None):
    gone = b"".join(identifier(path) + prefix_bytes(prefix) for prefix in withdrawn)
    new = b"".join(identifier(path) + prefix_bytes(prefix) for prefix in announced)
    inner = struct.pack(">H", len(gone)) + gone + struct.pack(">H", len(attributes)) + attributes + new
    message = b"\xff" * 16 + struct.pack(">HB", 19 + len(inner), 2) + inner
    address, asn = PEERS[peer]
    head = struct.pack(">IIHH", asn, 64500, 0, 1)
    head += ipaddress.ip_address(address).packed + ipaddress.ip_address("192.0.2.254").packed
    return record(16, 4 if path is None else 9, head + message, time)


def main():
    lines = [base64.b64encode(payload(c, p)).decode() + "\n" for c, p in ATTESTED.items()]
    (HERE / "neighbours.base64").write_text("".join(lines))
    (HERE / "table.mrt").write_bytes(table(PEERS, TABLE))
    (HERE / "own.mrt").write_bytes(table(OWN_PEERS, OWN_TABLE))
    news = [
        update(TIME + 60, 0, ["203.0.113.0/24"], b"", []),
        update(TIME + 420, 1, [], as_path([64502, 64503, 64530]), ["203.0.113.0/24"]),
    ]
    (HERE / "updates.mrt").write_bytes(b"".join(news))
    (HERE / "paths.mrt").write_bytes(table(PEERS, PATHS) + update(TIME + 60, 2, ["203.0.113.0/24"], b"", [], 2))
    (HERE / "otc.mrt").write_bytes(table(PEERS, OTC_TABLE))
    (HERE / "leaked.mrt").write_bytes(table(PEERS, LEAKED_TABLE))


if __name__ == "__main__":
    main()
