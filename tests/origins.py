#!/usr/bin/env python3
"""The states that `origins` lists, of drawn routes by drawn records, are those that plain lists give by RFC 6811, section 2: for each route all
records are gone through.

Usage: origins.py PROGRAM [FIRST LAST]. Each of the seeds from FIRST to LAST (from 1 to 60 without them) draws a script of steps, with `origins`
behind each: records of a dump that announce and withdraw routes, SLURM files with filters and assertions of prefixes, answers of two caches
with announcements and withdrawals, whole or as changes, and changed sessions. The last seed draws far more of each. Prints the seed of each
script whose text isn't as wanted. The last line is 'N passed, M failed', and the status is 0 where none failed.
"""
import ipaddress
import json
import os
import random
import socket
import struct
import subprocess
import sys
import tempfile
import threading

# The peers of all dumps: address and AS.
PEERS = [("192.0.2.1", 64501), ("192.0.2.2", 64502), ("2001:db8::3", 64503)]

# The bits of an address, by family, and what all drawn prefixes of the family have in front, with its bits.
BITS = {4: 32, 6: 128}
FRONTS = {4: (0xC633, 16), 6: (0x20010DB8, 32)}


# ---- what is drawn

def draw_prefix(draw, spread):
    """A family, an address and a length: few enough of them that they cover one another."""
    family = draw.choice([4, 4, 6])
    front, bits = FRONTS[family]
    length = draw.choice([0, 8, bits - 1, bits, bits + 4, bits + 7, bits + 8, bits + 8, bits + 8, bits + 9, bits + 12, BITS[family]])
    address = front << (BITS[family] - bits)
    address |= draw.randrange(spread) << (BITS[family] - bits - 12)
    return family, address >> (BITS[family] - length) << (BITS[family] - length), length


def draw_asn(draw):
    return draw.choice([0, 64500, 64500, 64499, 65536, 4294967295])


def draw_path(draw):
    """Segments: a kind (1 set, 2 sequence, 3 and 4 of a confederation) and ASes; the neighbour is first."""
    kind = draw.randrange(12)
    if kind == 0:
        return []
    if kind == 1:
        return [(2, [64501]), (1, [draw_asn(draw), 64502])]
    if kind == 2:
        return [(2, [64501]), (1, [64502]), (2, [draw_asn(draw)])]
    if kind == 3:
        return [(3, [65010]), (2, [64501, draw_asn(draw)]), (4, [65011])]
    if kind == 4:
        return [(3, [65010, draw_asn(draw)])]
    return [(2, [64501, draw_asn(draw)] + [64510] * (kind == 5))]


def draw_record(draw, spread):
    prefix = draw_prefix(draw, spread)
    high = BITS[prefix[0]]
    most = draw.choice([prefix[2], min(high, prefix[2] + draw.randrange(10)), high])
    return prefix, most, draw_asn(draw)


def draw_filter(draw, spread):
    prefix, asn = draw_prefix(draw, spread), draw_asn(draw)
    return draw.choice([(prefix, None), (None, asn), (prefix, asn)])


# ---- what is judged, by plain lists

def covers(one, other):
    """The prefix is of the family of the other one, not longer, and what its address begins with."""
    return one[0] == other[0] and one[2] <= other[2] and one[1] >> (BITS[one[0]] - one[2]) == other[1] >> (BITS[one[0]] - one[2])


def origin_of(path):
    """The last AS, and none where there is a set or no AS; segments of a confederation don't count."""
    others = [segment for segment in path if segment[0] in (1, 2)]
    if not others or any(kind == 1 for kind, _ in others):
        return None
    return others[-1][1][-1]


def hits(rule, record):
    return (rule[0] is None or covers(rule[0], record[0])) and (rule[1] is None or rule[1] == record[2])


class Judge:
    def __init__(self):
        self.routes, self.sources, self.filters, self.assertions = {}, {}, [], []

    def state_of(self, prefix, path):
        given = [record for records in self.sources.values() for record in records if not any(hits(rule, record) for rule in self.filters)]
        covering = [record for record in given + self.assertions if covers(record[0], prefix)]
        origin = origin_of(path)
        if any(prefix[2] <= most and asn == origin and asn != 0 for _, most, asn in covering):
            return "valid"
        return "invalid" if covering else "not-found"

    def text(self):
        lines, seen = [], {}
        for key in sorted(self.routes, key=place_of):
            peer, prefix, number = key
            pair = prefix, origin_of(self.routes[key])
            if pair not in seen:
                seen[pair] = self.state_of(prefix, self.routes[key])
            path = "" if number is None else f" path {number}"
            address, asn = PEERS[peer]
            lines.append(f"{spelled(ipaddress.ip_address(address))} {asn} {spelled(address_of(prefix))}/{prefix[2]}{path} {seen[pair]}\n")
        return "".join(lines)


def place_of(key):
    """Where a route stands: by peer, IPv4 before IPv6, address, length, and path identifier, none before each."""
    peer, (family, address, length), number = key
    return peer, family, address, length, -1 if number is None else number


def address_of(prefix):
    return (ipaddress.IPv4Address if prefix[0] == 4 else ipaddress.IPv6Address)(prefix[1])


def spelled(address):
    return address.exploded


# ---- what is written

def record(kind, subkind, body):
    return struct.pack(">IHHI", 0, kind, subkind, len(body)) + body


def peer_table():
    body = struct.pack(">IHH", 1, 0, len(PEERS))
    for address, asn in PEERS:
        packed = ipaddress.ip_address(address).packed
        body += struct.pack(">BI", 2 if len(packed) == 4 else 3, 0) + packed + struct.pack(">I", asn)
    return record(13, 1, body)


def prefix_bytes(prefix):
    return bytes([prefix[2]]) + address_of(prefix).packed[:(prefix[2] + 7) // 8]


def announcement(peer, prefix, number, path):
    """A record of a table with one route (RFC 6396, 8050)."""
    segments = b"".join(struct.pack(f">BB{len(ases)}I", kind, len(ases), *ases) for kind, ases in path)
    attributes = bytes([0x40, 2, len(segments)]) + segments
    entry = struct.pack(">HI", peer, 0) + (b"" if number is None else struct.pack(">I", number)) + struct.pack(">H", len(attributes)) + attributes
    subkind = (2 if prefix[0] == 4 else 4) + (0 if number is None else 6)
    return record(13, subkind, struct.pack(">I", 0) + prefix_bytes(prefix) + struct.pack(">H", 1) + entry)


def withdrawal(peer, prefix, number):
    """A message that withdraws one route (RFC 4271, 4760, 7911)."""
    gone = (b"" if number is None else struct.pack(">I", number)) + prefix_bytes(prefix)
    if prefix[0] == 4:
        inner = struct.pack(">H", len(gone)) + gone + struct.pack(">H", 0)
    else:
        attribute = struct.pack(">BBBHB", 0x80, 15, 3 + len(gone), 2, 1) + gone
        inner = struct.pack(">HH", 0, len(attribute)) + attribute
    message = b"\xff" * 16 + struct.pack(">HB", 19 + len(inner), 2) + inner
    address, asn = PEERS[peer]
    packed = ipaddress.ip_address(address).packed
    head = struct.pack(">IIHH", asn, 64511, 0, 1 if len(packed) == 4 else 2) + packed + bytes(len(packed))
    return record(16, 4 if number is None else 9, head + message)


def pdu(kind, field, body=b""):
    return struct.pack(">BBHI", 2, kind, field, 8 + len(body)) + body


def prefix_pdu(announced, held):
    (family, _, length), most, asn = held
    return pdu(family, 0, bytes([announced, length, most, 0]) + address_of(held[0]).packed + struct.pack(">I", asn))


def slurm(draw, filters, assertions):
    """A SLURM file; a prefix is written as Python shortens it, a maximum isn't written everywhere where it needn't be."""
    def text(prefix):
        return f"{address_of(prefix)}/{prefix[2]}"
    rules = [{name: value for name, value in (("prefix", prefix and text(prefix)), ("asn", asn)) if value is not None} for prefix, asn in filters]
    added = []
    for prefix, most, asn in assertions:
        added.append({"asn": asn, "prefix": text(prefix)})
        if most != prefix[2] or draw.random() < 0.5:
            added[-1]["maxPrefixLength"] = most
    return json.dumps({"slurmVersion": 1, "validationOutputFilters": {"prefixFilters": rules, "bgpsecFilters": []},
                       "locallyAddedAssertions": {"prefixAssertions": added, "bgpsecAssertions": []}}).encode()


# ---- a script

class Script:
    """The steps of a seed, as they are drawn: the lines, the dump, the files, what each connection to a cache sends, and the text that is
    wanted."""
    def __init__(self, seed, size):
        self.draw, self.size, self.spread = random.Random(seed), size, min(4096, 64 * size)
        self.judge, self.files, self.sent, self.sessions = Judge(), {}, {"c": [], "e": []}, {}
        self.lines, self.dump, self.wanted = ["open d dump", "take d 1"], [peer_table()], []

    def step(self):
        self.draw.choice([self.routes, self.routes, self.amend, self.answer, self.answer, self.answer, self.change_session])()
        self.lines.append("origins")
        self.wanted.append(self.judge.text())

    def routes(self):
        count = self.draw.randrange(1, 12 * self.size)
        for _ in range(count):
            if self.judge.routes and self.draw.random() < 0.3:
                key = self.draw.choice(list(self.judge.routes))
                del self.judge.routes[key]
                self.dump.append(withdrawal(*key))
            else:
                key = self.draw.randrange(len(PEERS)), draw_prefix(self.draw, self.spread), self.draw.choice([None, None, 0, 7])
                self.judge.routes[key] = draw_path(self.draw)
                self.dump.append(announcement(*key, self.judge.routes[key]))
        self.lines.append(f"take d {count}")

    def amend(self):
        self.judge.filters = [draw_filter(self.draw, self.spread) for _ in range(self.draw.choice([0, 0, 1, 3 * self.size]))]
        self.judge.assertions = [draw_record(self.draw, self.spread) for _ in range(self.draw.choice([0, 1, 6 * self.size]))]
        name = f"slurm{len(self.files)}"
        self.files[name] = slurm(self.draw, self.judge.filters, self.judge.assertions)
        self.lines.append(f"slurm {name}")

    def answer(self):
        """What changed, where the feed is connected; else, and at times there too, all that there is, on a connection of its own."""
        name = self.draw.choice("ce")
        if name in self.sessions and self.draw.random() < 0.9:
            self.lines.append(f"ask {name}")
            pending = list(self.judge.sources[name])
        else:
            self.lines.append(f"feed {name} {name}")
            self.sessions[name], pending = self.draw.randrange(65536), []
            self.sent[name].append([])
        pdus = [pdu(3, self.sessions[name])]
        for _ in range(self.draw.randrange(12 * self.size)):
            if pending and self.draw.random() < 0.4:
                pdus.append(prefix_pdu(0, pending.pop(self.draw.randrange(len(pending)))))
            else:
                held = draw_record(self.draw, self.spread)
                pdus.append(prefix_pdu(1, held))
                if held not in pending:
                    pending.append(held)
        pdus.append(pdu(7, self.sessions[name], struct.pack(">IIII", len(self.lines), 3600, 600, 7200)))
        self.sent[name][-1] += pdus
        self.judge.sources[name] = pending
        self.lines.append(f"sync {name} 100000000")

    def change_session(self):
        """A notice of another session: the feed is over, and its source has nothing any more."""
        name = self.draw.choice("ce")
        if name in self.sessions:
            self.sent[name][-1].append(pdu(0, self.sessions.pop(name) ^ 1, struct.pack(">I", 9)))
            self.judge.sources[name] = []
            self.lines.append(f"take {name} 1")
            self.wanted.append(f"! line {len(self.lines)} {name} unit {len(self.sent[name][-1])} cause 21 SessionChanged\n")


def serve(listener, connections):
    """Sends what each connection sends, and hears all that comes until the other end closes."""
    def play(connection, data):
        with connection:
            try:
                connection.sendall(data)
                while connection.recv(65536):
                    pass
            except OSError:
                pass

    for pdus in connections:
        connection, _ = listener.accept()
        threading.Thread(target=play, args=(connection, b"".join(pdus)), daemon=True).start()


def performed(program, script):
    """What the program writes, and its status."""
    with tempfile.TemporaryDirectory() as work:
        for name, data in {**script.files, "dump": b"".join(script.dump)}.items():
            with open(os.path.join(work, name), "wb") as file:
                file.write(data)
        lines = script.lines
        listeners = {name: socket.create_server(("127.0.0.1", 0)) for name in script.sent}
        for name, listener in listeners.items():
            threading.Thread(target=serve, args=(listener, script.sent[name]), daemon=True).start()
            place = f"127.0.0.1:{listener.getsockname()[1]}"
            lines = [f"feed {name} {place}" if line == f"feed {name} {name}" else line for line in lines]
        ended = subprocess.run([program, "run"], input="".join(f"{line}\n" for line in lines).encode(), cwd=work, capture_output=True, timeout=300)
        for listener in listeners.values():
            listener.close()
        return ended.stdout.decode(), ended.returncode


def main():
    program = os.path.abspath(sys.argv[1])
    first, last = map(int, sys.argv[2:4]) if len(sys.argv) > 2 else (1, 60)
    passed, failed, seen = 0, 0, {"valid": 0, "invalid": 0, "not-found": 0}
    for seed in range(first, last + 1):
        script = Script(seed, 25 if seed == last else 1)
        for _ in range(8 if seed == last else 24):
            script.step()
        wanted = "".join(script.wanted)
        text, status = performed(program, script)
        if (text, status) == (wanted, 1 if "! " in wanted else 0):
            passed += 1
        else:
            failed += 1
            print(f"seed {seed}: status {status}, and the text isn't as wanted")
            for number, (got, due) in enumerate(zip(text.split("\n"), wanted.split("\n")), 1):
                if got != due:
                    print(f"text line {number}: wanted: {due}\ngot: {got}")
                    break
        for line in wanted.splitlines():
            word = line.split()[-1]
            if word in seen:
                seen[word] += 1
    print(", ".join(f"{count} {state}" for state, count in seen.items()))
    print(f"{passed} passed, {failed} failed")
    sys.exit(1 if failed else 0)


if __name__ == "__main__":
    main()
