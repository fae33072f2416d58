#!/usr/bin/env python3
"""What each reader of the program costs at its worst, by inputs that are chosen for it: processor seconds a megabyte, and the peak of memory
in bytes for each byte of the input. These are the figures of 'What hostile input may cost' in docs/proved.md. It isn't run by tests/all.sh.

usage: reader_costs.py PROGRAM [MEGABYTES]"""
import base64
import itertools
import os
import socket
import struct
import subprocess
import sys
import tempfile
import threading



def der(tag, content):
    """A value in DER."""
    size = len(content)
    if size < 128:
        return bytes([tag, size]) + content
    length = size.to_bytes((size.bit_length() + 7) // 8, "big")
    return bytes([tag, 128 + len(length)]) + length + content


def number(value):
    """An INTEGER in DER."""
    return der(2, value.to_bytes(value.bit_length() // 8 + 1, "big"))


def payload(customer, providers):
    listed = der(0x30, b"".join(number(asn) for asn in providers))
    return der(0x30, der(0xA0, number(1)) + number(customer) + listed)


def fill(size, item):
    """Items one after another, each of a number from 0 on, until there are so many bytes."""
    parts, held, at = [], 0, 0
    while held < size:
        part = item(at)
        parts.append(part)
        held += len(part)
        at += 1
    return b"".join(parts)


def prefix(at):
    return bytes([32]) + struct.pack(">I", at & 0xFFFFFFFF)


def record(subtype, body):
    return struct.pack(">IHHI", 0, 13, subtype, len(body)) + body


def route(at, path):
    """A record of one route, from the first peer, with this path and a prefix of its own."""
    hops = struct.pack(">BB", 2, len(path)) + b"".join(struct.pack(">I", asn) for asn in path)
    attributes = bytes([0x40, 2, len(hops)]) + hops
    entry = struct.pack(">HIH", 0, 0, len(attributes)) + attributes
    return record(2, struct.pack(">I", at & 0xFFFFFFFF) + prefix(at) + struct.pack(">H", 1) + entry)


# How many inputs there are.
COUNT = 21

def peers(count, apart=0):
    """A peer table of so many peers, each of the AS of the one before and so many more."""
    return record(
        1, struct.pack(">IHH", 1, 0, count) + b"".join(struct.pack(">BIII", 2, 1, 1 + i, 64501 + apart * i) for i in range(count))
    )


def from_all(count):
    """A record of a route from each of so many peers, with an empty path."""
    entries = b"".join(struct.pack(">HIH", at, 0, 3) + bytes([0x40, 2, 0]) for at in range(count))
    return record(2, struct.pack(">I", 0) + prefix(7) + struct.pack(">H", count) + entries)


PEERS = record(1, struct.pack(">IHH", 1, 0, 1) + struct.pack(">BIII", 2, 1, 1, 64501))
SLURM = (
    b'{"slurmVersion":2,"validationOutputFilters":{"prefixFilters":[%s],"bgpsecFilters":[],"aspaFilters":[]},'
    b'"locallyAddedAssertions":{"prefixAssertions":[%s],"bgpsecAssertions":[],"aspaAssertions":[%s]}}'
)
VALIDATED = b'{"aspas":[%s],"roas":[%s],"metadata":[%s]}'
DUMP = "open d input\ntake d 100000000\n"
BMP = "bmp d input pre\ntake d 100000000\n"


def pdu(customer):
    return struct.pack(">BBHIII", 2, 11, 0x0100, 16, customer, 7)


def prefix_pdu(at):
    return struct.pack(">BBHIBBBBII", 2, 4, 0, 20, 1, 32, 32, 0, at, 7)


def inputs(size):
    """What is read, its bytes, and the script; `None` where the input is the script itself."""
    yield "script: lines that are no command", fill(size, lambda at: b"x\n"), None
    yield "script: a customer asserted by each line", fill(size, lambda at: b"assert %d 1\n" % (1 + at)), None
    yield "script: a role set by each line", fill(size, lambda at: b"role %d peer\n" % (1 + at)), None
    yield "payloads: one provider each", fill(size, lambda at: payload(1 + at, [4294967295])), "aspa a input\n"
    yield "payloads: one with many providers", payload(1, range(2, 2 + size // 5)), "aspa a input\n"
    yield "base64 lines: one provider each", fill(
        size, lambda at: base64.b64encode(payload(1 + at, [4294967295])) + b"\n"
    ), "aspa64 a input\n"
    yield "SLURM: filters of prefixes, by an AS each", SLURM % (b",".join([b'{"asn":1}'] * (size // 10)), b"", b""), "slurm input\n"
    yield "SLURM: a prefix asserted by each element", SLURM % (
        b"", b",".join(b'{"asn":1,"prefix":"::%x:%x/128"}' % (at >> 16, at & 65535) for at in range(size // 32)), b""
    ), "slurm input\n"
    yield "SLURM: one assertion of many providers", SLURM % (
        b"", b"", b'{"customerAsn":1,"providerAsns":[%s]}' % b",".join(b"%d" % asn for asn in range(2, 2 + size // 8))
    ), "slurm input\n"
    yield "validated: one provider each", VALIDATED % (
        b",".join(b'{"customer":%d,"providers":[1]}' % (2 + at) for at in range(size // 34)), b"", b""
    ), "validated a input\n"
    yield "validated: one with many providers", VALIDATED % (
        b'{"customer":1,"providers":[%s]}' % b",".join(b"%d" % asn for asn in range(2, 2 + size // 8)), b"", b""
    ), "validated a input\n"
    yield "validated: a record of a prefix in each element", VALIDATED % (
        b"", b",".join(b'{"asn":1,"prefix":"::%x:%x/128"}' % (at >> 16, at & 65535) for at in range(size // 32)), b""
    ), "validated a input\n"
    yield "validated: what is passed over", VALIDATED % (b"", b"", b",".join([b"{}"] * (size // 3))), "validated a input\n"
    yield "table: a route with a path of its own each", PEERS + fill(size, lambda at: route(at, [64501, 100_000 + at])), DUMP
    yield "table: routes with one path", PEERS + fill(size, lambda at: route(at, [64501, 7])), DUMP
    yield "table: the same, in no order", PEERS + fill(size, lambda at: route(at * 2_654_435_761, [64501, 7])), DUMP
    yield "table: 65,535 peers with a route each", peers(65_535) + from_all(65_535), DUMP
    yield "table: the same, each of another AS", peers(65_535, 1) + from_all(65_535), DUMP
    yield "table: records that are refused", fill(size, lambda at: record(2, b"")), DUMP
    yield "updates: withdrawals of what isn't there", fill(
        size, withdrawals
    ), DUMP
    yield "updates: paths of ASes never seen before", fill(
        size, lambda at: announcement([64501, *range(100_000 + 16_000 * at, 116_000 + 16_000 * at)], prefix(at))
    ), DUMP
    yield "updates: the same, and an assertion that lists their hops", fill(
        size, lambda at: announcement([64501, *range(100_000 + 16_000 * at, 116_000 + 16_000 * at)], prefix(at))
    ), DUMP + "assert 1 2\n"
    yield "BMP: a route with a path of its own each", fill(size, lambda at: monitoring([64501, 100_000 + at], prefix(at))), BMP
    yield "BMP: a peer in each Peer Up, with a role and path identifiers", fill(size, peer_up), BMP
    yield "feed: a customer in each PDU", fill(size, lambda at: pdu(1 + at)), "feed"
    yield "feed: a prefix in each PDU", fill(size, prefix_pdu), "feed"


def withdrawals(at):
    """An UPDATE that withdraws 13,000 prefixes."""
    body = b"".join(prefix(13_000 * at + i) for i in range(13_000))
    return message(struct.pack(">H", len(body)) + body + b"\0\0")


def announcement(path, announced):
    """An UPDATE that announces prefixes with a path."""
    segments = [path[at : at + 255] for at in range(0, len(path), 255)]
    content = b"".join(struct.pack(f">BB{len(ases)}I", 2, len(ases), *ases) for ases in segments)
    attributes = struct.pack(">BBH", 0x50, 2, len(content)) + content
    return message(struct.pack(">HH", 0, len(attributes)) + attributes + announced)


def message(body):
    """A record of BGP4MP_MESSAGE_AS4 with this UPDATE."""
    update = b"\xff" * 16 + struct.pack(">HB", 19 + len(body), 2) + body
    head = struct.pack(">IIHHII", 64501, 64511, 0, 1, 0xC0000201, 0xC00002FE)
    return struct.pack(">IHHI", 0, 16, 4, len(head) + len(update)) + head + update


def bmp(kind, address, asn, body):
    """A message of BMP (RFC 7854, section 4) of a peer with an IPv4 address."""
    head = struct.pack(">BBQQIIIIII", 0, 0, 0, 0, 0, address, asn, address, 0, 0)
    return struct.pack(">BIB", 3, 6 + len(head) + len(body), kind) + head + body


def monitoring(path, announced):
    """A Route Monitoring of one UPDATE."""
    return bmp(0, 0xC0000201, path[0], announcement(path, announced)[12 + 20 :])


def peer_up(at):
    """A Peer Up of a peer of its own, whose OPENs have a role and ADD-PATH."""
    capabilities = bytes([9, 1, 3, 69, 4, 0, 1, 1, 3])
    optional = bytes([2, len(capabilities)]) + capabilities
    opening = b"\xff" * 16 + struct.pack(">HBBHHIB", 29 + len(optional), 1, 4, 23456, 180, 1 + at, len(optional)) + optional
    return bmp(3, 1 + at, 1 + at, b"\0" * 16 + struct.pack(">HH", 179, 179) + opening + opening)


def serve(name):
    """The lines of a feed on a cache that sends the file's PDUs as its answer."""
    listener = socket.create_server(("127.0.0.1", 0))

    def answer():
        connection, _ = listener.accept()
        connection.recv(8)
        connection.sendall(struct.pack(">BBHI", 2, 3, 7, 8))
        with open(name, "rb") as given:
            connection.sendfile(given)
        connection.sendall(struct.pack(">BBHIIIII", 2, 7, 7, 24, 1, 3600, 600, 7200))
        connection.recv(1)

    threading.Thread(target=answer, daemon=True).start()
    return f"feed c 127.0.0.1:{listener.getsockname()[1]}\nsync c 100000000\n"


def run(program, folder, script):
    """The status, the processor seconds and the peak of memory in bytes. (The peak takes in that of this process, which holds no input.)"""
    with open(script, "rb") as given:
        process = subprocess.Popen([program, "run"], stdin=given, stdout=subprocess.DEVNULL, cwd=folder)
        _, status, used = os.wait4(process.pid, 0)
    return os.waitstatus_to_exitcode(status), used.ru_utime + used.ru_stime, used.ru_maxrss * 1024


def write(name, text):
    with open(name, "wb") as file:
        file.write(text)


def main():
    if len(sys.argv) == 4:
        place, size, folder = sys.argv[1:]
        what, given, script = next(itertools.islice(inputs(int(size)), int(place), None))
        write(os.path.join(folder, "input"), given)
        print(what, script or "", sep="\n", end="")
        return
    if len(sys.argv) not in (2, 3):
        sys.exit(__doc__)
    program = os.path.abspath(sys.argv[1])
    size = int(float(sys.argv[2] if len(sys.argv) == 3 else 8) * 1_000_000)
    print("| Input | Seconds a megabyte | Bytes of memory a byte |\n|---|---|---|")
    with tempfile.TemporaryDirectory() as folder:
        given, script = os.path.join(folder, "input"), os.path.join(folder, "script")
        for place in range(COUNT):
            # (by a process of its own, so that this one stays small)
            said = subprocess.run([sys.executable, __file__, str(place), str(size), folder], stdout=subprocess.PIPE, text=True, check=True)
            what, _, lines = said.stdout.partition("\n")
            write(script, (serve(given) if lines == "feed" else lines).encode())
            status, seconds, peak = run(program, folder, script if lines else given)
            if status not in (0, 1):
                sys.exit(f"{what}: status {status}")
            length = os.path.getsize(given)
            print(f"| {what} | {seconds * 1e6 / length:.3f} | {peak / length:.1f} |", flush=True)


main()
