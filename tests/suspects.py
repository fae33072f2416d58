#!/usr/bin/env python3
"""What `suspects`, `details`, `peers` and `changes` list is what a plain computation gives by the definitions, and `until` in steps is `take`
of as many records.

Usage: suspects.py PROGRAM [FIRST LAST]. Each of the seeds from FIRST to LAST (from 1 to 60 without them, of which the last one draws far more)
draws scripts, and each is a test:

- attestations, roles and routes that come, change and go; behind each step all lists are those that the definitions give, worked out hop by hop
  and pair by pair, and each route that the program shows as blocked has a valley;
- a hierarchy of ASes in which one passes routes of one provider on to another, and all others do as they should: the suspects are that AS alone;
- for each sixth seed a month of records, in order of time but for some, in steps of an hour with lists between: once by `until`, and once by
  `take` with counts, where both have the text that is worked out.

Prints the seed of each script whose text isn't as wanted, and how much was drawn of each kind, which is a test too where no seeds are given. The
last line is 'N passed, M failed', and the status is 0 where none failed.
"""
import collections
import ipaddress
import math
import os
import random
import struct
import subprocess
import sys
import tempfile

from plainly import Analysis, Path, Peer, announcement, as_path, message, peer_table, prefix_bytes, record, session_end, withdrawal

ROLES = ["provider", "customer", "peer", "rs", "rs-client", "mutual"]


# ---- scripts

class Script:
    """Lines, the dump that they take, the other files that they name, and the lines of text that are wanted."""
    def __init__(self, draw):
        self.draw, self.lines, self.dump, self.files, self.wanted = draw, [], [], {}, []

    def ask(self, line, answers):
        self.lines.append(line)
        self.wanted += answers

    def performed(self, program):
        """What the program writes, in lines, and its status."""
        with tempfile.TemporaryDirectory() as work:
            for name, data in {**self.files, "dump": b"".join(self.dump)}.items():
                with open(os.path.join(work, name), "wb") as file:
                    file.write(data)
            text = "".join(f"{line}\n" for line in self.lines).encode()
            ended = subprocess.run([program, "run"], input=text, cwd=work, capture_output=True, timeout=300)
            return ended.stdout.decode().splitlines(), ended.returncode


class Drawn(Script):
    """Few ASes, so that paths meet what is attested, and come through the same valleys."""
    ANALYSIS = Analysis

    def __init__(self, draw, size):
        super().__init__(draw)
        self.ases = draw.sample(range(1, 100), draw.randrange(4, 9)) + [4294967295]
        near = sorted(draw.sample(self.ases, 3))
        self.peers = [Peer("192.0.2.1", near[0]), Peer("192.0.2.1", near[1]), Peer("192.0.2.2", near[0]), Peer("2001:db8::3", near[2])]
        self.analysis, self.size, self.ends = self.ANALYSIS(self.peers), size, [draw.sample(self.ases, draw.randrange(1, 4)) for _ in range(4)]
        self.lines, self.dump = ["open d dump", "take d 1"], [peer_table(self.peers)]
        for asn in draw.sample(self.ases, len(self.ases) * 2 // 3):
            self.attest(asn)
        self.change_role()

    def step(self):
        self.draw.choice([self.announce, self.announce, self.change, self.change_role, self.leave, self.end, self.clear])()
        self.analysis.judged.clear()
        self.ask("details", self.analysis.details())
        self.ask("suspects", self.analysis.suspects())
        self.ask("peers", self.analysis.sessions())
        verdict = self.draw.choice(["valid", "unknown", "invalid"])
        self.ask(f"details {verdict}", self.analysis.details(verdict))
        if self.draw.random() < 0.5:
            self.ask("changes", self.analysis.changes())

    def take(self, records):
        self.dump += records
        self.lines.append(f"take d {len(records)}" if records else "")

    def draw_path(self):
        """From the neighbour on, mostly, some drawn ASes, and one of a few ends."""
        return self.draw.choices(self.ases, k=self.draw.randrange(4)) + self.draw.choice(self.ends)

    def draw_route(self):
        peer = self.draw.randrange(len(self.peers))
        net = self.draw.choice([ipaddress.ip_network(f"10.0.{self.draw.randrange(4 * self.size)}.0/24"), ipaddress.ip_network("2001:db8::/32"),
                                ipaddress.ip_network(f"10.{self.draw.randrange(2)}.0.0/{self.draw.randrange(16, 20)}")])
        ases = [self.peers[peer].asn] * self.draw.choice([0, 1, 1, 1, 1, 1, 2]) + self.draw_path()
        if self.draw.random() < 0.03:
            ases = []
        return (peer, net, self.draw.choice([None, None, 0, 7])), Path(self.draw.random() < 0.05, tuple(ases))

    def announce(self):
        routes = [self.draw_route() for _ in range(self.draw.randrange(1, 20 * self.size))]
        self.analysis.routes.update(routes)
        self.take([announcement(*key, path) for key, path in routes])

    def leave(self):
        gone = [key for key in self.analysis.routes if self.draw.random() < 0.3]
        for key in gone:
            del self.analysis.routes[key]
        self.take([withdrawal(0, self.peers[peer], net, number) for peer, net, number in gone])

    def end(self):
        peer = self.draw.randrange(len(self.peers))
        self.analysis.routes = {key: path for key, path in self.analysis.routes.items() if key[0] != peer}
        self.take([session_end(0, self.peers[peer])])

    def clear(self):
        self.analysis.routes = {}
        self.lines.append("clear")
        self.announce()

    def attest(self, asn):
        providers = self.draw.sample(self.ases, self.draw.randrange(3))
        self.analysis.table.setdefault(asn, set()).update(providers)
        self.lines.append(f"assert {asn} {' '.join(map(str, providers or [0]))}")

    def change(self):
        for asn in self.draw.sample(self.ases, self.draw.randrange(1, 4)):
            if self.analysis.table.pop(asn, None) is None or self.draw.random() < 0.5:
                self.lines.append(f"unassert {asn}")
                self.attest(asn)
            else:
                self.lines.append(f"unassert {asn}")

    def change_role(self):
        role = self.draw.choice(ROLES)
        if self.draw.random() < 0.3:
            self.analysis.default = role
            self.lines.append(f"role default {role}")
        else:
            asn = self.draw.choice(self.peers).asn
            self.analysis.roles[asn] = role
            self.lines.append(f"role {asn} {role}")


class Planted(Script):
    """ASes in ranks. Each has some providers in ranks above its own, those of the first rank peer with each other, and all may attest. What is
    announced climbed, crossed between two of the first rank at most, and came down, to one of our providers; or the leaker, which has at least
    two providers, got it from one of these and passed it on to another, from where it went on so, or to us, whose customer or peer it is."""
    def __init__(self, draw, size):
        super().__init__(draw)
        ranks = [range(100 * rank, 100 * rank + count * size) for rank, count in ((1, 3), (2, 5), (3, 8), (4, 12))]
        self.top, self.ases = list(ranks[0]), [asn for rank in ranks for asn in rank]
        self.providers = {asn: [] for asn in self.top}
        for rank, asns in enumerate(ranks[1:], 1):
            above = [asn for higher in ranks[:rank] for asn in higher]
            self.providers.update({asn: draw.sample(above, draw.randrange(1, 4)) for asn in asns})
        self.leaker = draw.choice([asn for asn in self.ases if len(self.providers[asn]) > 1])
        self.attest()
        self.announce()

    def attest(self):
        """All, or the leaker's providers and some others, and perhaps the leaker."""
        some = self.draw.choice([1, 0.3])
        for asn in self.ases:
            if asn in self.providers[self.leaker] or self.draw.random() < some:
                self.lines.append(f"assert {asn} {' '.join(map(str, self.providers[asn] or [0]))}")

    def climb(self, path):
        """Goes on upwards from the last AS, for some hops or to the first rank, where it may cross over."""
        while self.providers[path[-1]] and self.draw.random() < 0.8:
            path.append(self.draw.choice(self.providers[path[-1]]))
        if path[-1] in self.top and self.draw.random() < 0.5:
            path.append(self.draw.choice(self.top))

    def come_down(self, path, goal=None):
        """Goes on downwards, for some hops, or up to a goal if there is a way."""
        while path[-1] != goal:
            below = [asn for asn in self.ases if path[-1] in self.providers[asn] and asn != self.leaker and (goal is None or self.reaches(asn, goal))]
            if not below or goal is None and self.draw.random() < 0.4:
                break
            path.append(self.draw.choice(below))

    def reaches(self, asn, goal):
        return asn == goal or any(self.reaches(asn, provider) for provider in self.providers[goal])

    def path(self, leaked):
        """Origin first, with no AS twice; none where the draw had one twice, or didn't come to the leaker."""
        ases = [self.draw.choice([asn for asn in self.ases if asn != self.leaker])]
        self.climb(ases)
        if leaked:
            giver, taker = self.draw.sample(self.providers[self.leaker], 2)
            self.come_down(ases, giver)
            if ases[-1] != giver:
                return None
            ases.append(self.leaker)
            if self.draw.random() < 0.3:
                return None if len(set(ases)) < len(ases) else ases
            ases.append(taker)
            self.climb(ases)
        self.come_down(ases)
        return None if len(set(ases)) < len(ases) else ases

    def announce(self):
        """The table, and the lines of suspects: by who gave the leaker a route, and whom it passed it on to."""
        routes = []
        while len(routes) < 300:
            leaked = self.draw.random() < 0.3
            if ases := self.path(leaked):
                routes.append((ases[::-1], leaked))
        peers = [Peer(f"192.0.{place // 250}.{place % 250}", asn) for place, asn in enumerate(sorted({ases[0] for ases, _ in routes}))]
        place = {peer.asn: number for number, peer in enumerate(peers)}
        self.lines += [f"role {self.leaker} {self.draw.choice(['customer', 'peer'])}", "open d dump", "take d 100000"]
        self.dump.append(peer_table(peers))
        tally = collections.defaultdict(list)
        for number, (ases, leaked) in enumerate(routes):
            net = ipaddress.ip_network(f"10.{number // 250}.{number % 250}.0/24")
            self.dump.append(announcement(place[ases[0]], net, None, Path(False, tuple(ases))))
            if leaked:
                at = ases.index(self.leaker)
                tally[ases[at + 1], ases[at - 1] if at else math.inf].append(tuple(ases))
        self.leaked = sum(map(len, tally.values()))
        for (giver, taker), paths in sorted(tally.items()):
            self.wanted.append(f"{giver} {self.leaker} {self.leaker} {'here' if taker == math.inf else taker} routes {len(paths)} paths {len(set(paths))}")
        self.lines.append("suspects")


class Month(Script):
    """Records of a month, some of them with an earlier or a later time than those around them, some refused, and some passed over."""
    HOUR, HOURS = 3600, 720

    def __init__(self, draw, size):
        super().__init__(draw)
        self.peer = Peer("192.0.2.1", 64501)
        self.analysis, self.counted, self.at = Analysis([self.peer]), [], 0
        start = draw.choice([0, 1735689600, 4294967295 - self.HOURS * self.HOUR])
        stamps = sorted(draw.choice([self.HOUR, 1]) * draw.randrange(self.HOURS) for _ in range(400 * size))
        stamps += sorted(draw.randrange(self.HOURS * self.HOUR) for _ in range(800 * size))
        stamps.sort()
        for place in draw.sample(range(len(stamps)), 12):
            stamps[place] = draw.randrange(self.HOURS * self.HOUR)
        # The last one isn't below any moment that is asked for, so that no line meets the end.
        self.records = [self.draw_record(start + stamp) for stamp in [*stamps, self.HOURS * self.HOUR]]
        self.dump = [data for _, data, _, _ in self.records]
        self.lines = ["assert 1 64501", "assert 3 0", "role 64501 customer", "open d dump"]
        self.analysis.table, self.analysis.default = {1: {64501}, 3: set()}, "customer"
        self.counted = list(self.lines)
        for hour in range(1, self.HOURS + 1):
            self.step(start + hour * self.HOUR)

    def draw_record(self, stamp):
        """Its time, its bytes, the route that comes or goes, if one does, and its path."""
        kind, key = self.draw.randrange(10), (0, ipaddress.ip_network(f"10.0.{self.draw.randrange(16)}.0/24"), None)
        if kind == 0:
            return stamp, record(stamp, 16, 4, b""), None, None
        if kind == 1:
            return stamp, record(stamp, 99, 0, b"x"), None, None
        if kind < 4:
            return stamp, withdrawal(stamp, self.peer, key[1], None), key, None
        path = Path(False, (64501, *self.draw.choices([1, 2, 3, 4], k=self.draw.randrange(3))))
        data = message(stamp, self.peer, None, b"", as_path(path), prefix_bytes(key[1]))
        if kind == 4:
            data = record(stamp, 17, 4, struct.pack(">I", self.draw.randrange(1000000)) + data[12:])
        return stamp, data, key, path

    def step(self, moment):
        """The next records, up to the first whose time isn't below the moment."""
        first = self.at
        self.lines.append(f"until d {moment}")
        while self.at < len(self.records) and self.records[self.at][0] < moment:
            _, data, key, path = self.records[self.at]
            self.at += 1
            if data[4:6] == b"\0\x10" and len(data) == 12:
                self.wanted.append(f"! line {len(self.lines)} d unit {self.at} cause 28 Body")
            elif path is not None:
                self.analysis.routes[key] = path
            elif key is not None:
                self.analysis.routes.pop(key, None)
        self.counted.append(f"take d {self.at - first}" if self.at > first else "")
        for line, answers in (("changes", self.analysis.changes()), ("suspects", self.analysis.suspects())):
            self.ask(line, answers)
            self.counted.append(line)


# ---- the tests

class Seen:
    """How many tests passed and failed, and how much was drawn of each kind."""
    def __init__(self):
        self.passed, self.failed, self.kinds = 0, 0, collections.Counter()

    def test(self, what, holds):
        self.passed += bool(holds)
        self.failed += not holds
        if not holds:
            print(f"failed: {what}")

    def compare(self, what, script, program):
        text, status = script.performed(program)
        refused = any(line.startswith("! ") for line in script.wanted)
        self.test(f"{what}: the text and the status", (text, status) == (script.wanted, int(refused)))
        for number, (got, due) in enumerate(zip(text + ["no line more"], script.wanted + ["no line more"]), 1):
            if got != due:
                print(f"text line {number}: wanted: {due}\ngot: {got}")
                break

    def count(self, script):
        """The kinds of valleys, and blocked routes without one, of which there must be none."""
        for standing in script.analysis.drawn:
            self.kinds["blocked" if standing.witness.startswith("blocked") else standing.verdict] += 1
            self.kinds["two valleys"] += len(standing.valleys) > 1
            self.kinds["no valley"] += standing.witness.startswith("blocked") and not standing.valleys
            for _, first, last, to in standing.valleys:
                self.kinds["of one AS" if first == last else "of more"] += 1
                self.kinds["here"] += to is None


def main():
    program = os.path.abspath(sys.argv[1])
    first, last = map(int, sys.argv[2:4]) if len(sys.argv) > 2 else (1, 60)
    seen = Seen()
    for seed in range(first, last + 1):
        size = 8 if seed == last else 1
        drawn = Drawn(random.Random(seed), size)
        for _ in range(20):
            drawn.step()
        seen.compare(f"seed {seed}, drawn", drawn, program)
        seen.count(drawn)
        planted = Planted(random.Random(seed), size)
        seen.compare(f"seed {seed}, a planted leaker", planted, program)
        seen.kinds["planted"] += planted.leaked
        if seed % 6 == 0:
            month = Month(random.Random(seed), size)
            seen.compare(f"seed {seed}, a month in hours", month, program)
            month.lines = month.counted
            seen.compare(f"seed {seed}, a month by counts", month, program)
    print(", ".join(f"{count} {kind}" for kind, count in seen.kinds.items()))
    seen.test("each blocked route has a valley", not seen.kinds.pop("no valley"))
    if len(sys.argv) == 2:
        seen.test("enough was drawn of each kind", min(seen.kinds.values()) >= 600)
    print(f"{seen.passed} passed, {seen.failed} failed")
    sys.exit(1 if seen.failed else 0)


if __name__ == "__main__":
    main()
