#!/usr/bin/env python3
"""Where the lines of a script and all that is held beside them double together, their time grows at most by the factor 2.6, counted from 0.15 s
on: a line costs what it touches, and not what is held. Only lines that give one customer a provider more may each cost the customer's row: there it
is the factor 7 (twice the size costs four times as much, and more where the row outgrows a cache; a cube would cost eight times), and 10,000 assertions take at most 2.5 s.

Usage: costs.py PROGRAM. Runs scripts with lines of each kind and prints a table of the processor seconds that these lines take, beside a run
of the same script without them. The last line is 'N passed, M failed', and the status is 0 where none failed.
"""
import base64
import os
import struct
import subprocess
import sys
import tempfile

# By how much the time may grow where the size doubles, where a line may cost the row too, and the seconds that count as none.
LINEAR = 2.6
ROW = 7.0
FLOOR = 0.15

# The seconds that the most asserted lines of one customer may take.
MOST_SECONDS = 2.5

# How often the sizes of a kind are measured at most; it is twice where nothing is wrong.
MOST_TURNS = 8

# The AS of all peers of a dump.
PEER = 64_501

# As many records as a line can take: all of a dump.
ALL = 100_000_000


def record(subtype, body):
    """A record of TABLE_DUMP_V2 (RFC 6396, section 4.3)."""
    return struct.pack(">IHHI", 0, 13, subtype, len(body)) + body


def peer_table(count, first=PEER, step=0):
    """So many peers, each with an IPv4 address of its own and an AS of 4 bytes: all with one AS, or with rising ones."""
    peers = b"".join(struct.pack(">BIII", 2, 1 + i, 0x0A000000 + i, first + step * i) for i in range(count))
    return record(1, struct.pack(">IHH", 1, 0, count) + peers)


def as_path(path):
    """The AS_PATH of these ASes (RFC 4271, section 4.3), in segments of 255 at most; two bytes say its length where one can't."""
    parts = (path[place : place + 255] for place in range(0, len(path), 255))
    hops = b"".join(struct.pack(f">BB{len(part)}I", 2, len(part), *part) for part in parts)
    if len(hops) < 256:
        return bytes([0x40, 2, len(hops)]) + hops
    return struct.pack(">BBH", 0x50, 2, len(hops)) + hops


def route(number, peer, path):
    """A route of a peer with this path, to the network of 24 bits of that number."""
    attributes = as_path(path)
    prefix = bytes([24]) + struct.pack(">I", (0x0B000000 + 256 * number) & 0xFFFFFFFF)[:3]
    entry = struct.pack(">HIH", peer, 0, len(attributes)) + attributes
    return record(2, struct.pack(">I", number) + prefix + struct.pack(">H", 1) + entry)


def update(path, withdrawn, announced):
    """An UPDATE of the first peer in BGP4MP (RFC 6396, section 4.4.3): prefixes that go, and prefixes that come with this path."""
    attributes = bytes([0x40, 1, 1, 0]) + as_path(path) + bytes([0x40, 3, 4, 1, 1, 1, 1]) if announced else b""
    body = struct.pack(">H", len(withdrawn)) + withdrawn + struct.pack(">H", len(attributes)) + attributes + announced
    message = b"\xff" * 16 + struct.pack(">HB", 19 + len(body), 2) + body
    head = struct.pack(">IIHHII", PEER, 64_500, 0, 1, 0x0A000000, 0x0A0000FF)
    return struct.pack(">IHHI", 0, 16, 4, len(head) + len(message)) + head + message


def der(tag, content):
    """A value in DER."""
    size = len(content)
    if size < 128:
        return bytes([tag, size]) + content
    length = size.to_bytes((size.bit_length() + 7) // 8, "big")
    return bytes([tag, 128 + len(length)]) + length + content


def number(value):
    """An INTEGER in DER."""
    return der(2, value.to_bytes(value.bit_length() // 8 + 1, "big"))


def payload(customer, providers):
    """What one customer attests."""
    listed = der(0x30, b"".join(number(asn) for asn in providers))
    return der(0x30, der(0xA0, number(1)) + number(customer) + listed)


def write(folder, name, data):
    """A file of the folder, by its whole name."""
    path = os.path.join(folder, name)
    with open(path, "wb") as file:
        file.write(data)
    return path


# ---- the lines that are measured, each behind those that aren't

def changes(folder, size):
    """A list of changes after one assertion that changes each verdict: so many peers of one AS have a path of their own each."""
    routes = b"".join(route(i, i, [PEER, 7, 100_000 + i]) for i in range(size))
    dump = write(folder, "dump", peer_table(size) + routes)
    before = f"role default customer\nopen d {dump}\ntake d {ALL}\nchanges\nassert 7 1\n"
    return before, "changes\n"


def assertions(folder, size):
    """The providers of one customer, asserted one by one."""
    return "", "".join(f"assert 1 {2 + i}\n" for i in range(size))


def hops(folder, size):
    """A provider more of one customer and no more, by turns, where the customer has a row and is on as many paths, each with another neighbour."""
    routes = b"".join(route(i, 0, [PEER, 7, 100_000 + i]) for i in range(size))
    dump = write(folder, "dump", peer_table(1) + routes)
    file = write(folder, "payload", payload(7, [1]))
    return f"open d {dump}\ntake d {ALL}\naspa s {file}\n", "assert 7 2\nunassert 7\n" * (size // 2)


def sources(folder, size):
    """So many sources that attest one customer, each with the same provider."""
    file = write(folder, "payload", payload(1, [2]))
    return "", "".join(f"aspa s{i} {file}\n" for i in range(size))


def other_sources(folder, size):
    """The same, each with a provider of its own."""
    files = [write(folder, f"payload{i}", payload(1, [2 + i])) for i in range(size)]
    return "", "".join(f"aspa s{i} {file}\n" for i, file in enumerate(files))


def roles(folder, size):
    """The role of all others, turned over, as often as ASes have a role of their own."""
    before = "".join(f"role {1 + i} peer\n" for i in range(size))
    return before, "role default customer\nrole default peer\n" * (size // 2)


def own_roles(folder, size):
    """The same, where each of these ASes is that of a peer with a route."""
    routes = b"".join(route(i, i, [100_000 + i, 7]) for i in range(size))
    dump = write(folder, "dump", peer_table(size, 100_000, 1) + routes)
    before = f"open d {dump}\ntake d {ALL}\n" + "".join(f"role {100_000 + i} peer\n" for i in range(size))
    return before, "role default customer\nrole default peer\n" * (size // 2)


def summaries(folder, size):
    """Summaries, of a thousand times as many routes."""
    routes = b"".join(route(i, 0, [PEER, 7, 100_000 + i // 10]) for i in range(1_000 * size))
    dump = write(folder, "dump", peer_table(1) + routes)
    return f"open d {dump}\ntake d {ALL}\n", "summary\n" * size


def filters(folder, size):
    """Filters that are there already, and ones that aren't and go, of an AS on each path of a table of as many routes."""
    routes = b"".join(route(i, 0, [PEER, 7, 100_000 + i]) for i in range(size))
    dump = write(folder, "dump", peer_table(1) + routes)
    return f"open d {dump}\ntake d {ALL}\nfilter 7\n", "filter 7\nunfilter 8\n" * size


def moments(folder, size):
    """Attestations of so many customers, each with an end of its own, and the moments of all these ends, one after another."""
    lines = b"".join(base64.b64encode(payload(1 + i, [100_000])) + b" %d\n" % (1 + i) for i in range(size))
    file = write(folder, "lines", lines)
    return f"aspa64 s {file}\n", "".join(f"at {1 + i}\n" for i in range(size))


def attestations(folder, size):
    """One customer with so many attestations, each with a provider and an end of its own, loaded by one line, and a moment past all ends."""
    lines = b"".join(base64.b64encode(payload(7, [100_000 + i])) + b" %d\n" % (1 + i) for i in range(size))
    file = write(folder, "lines", lines)
    return "", f"aspa64 s {file}\nat {size}\n"


def rows(folder, size):
    """Customers with a hundred times as many providers each, all with the same ones, loaded by one line: its bytes are four times as many."""
    file = write(folder, "payloads", b"".join(payload(1 + i, range(1_000, 1_000 + 100 * size)) for i in range(size)))
    return "", f"aspa a {file}\n"


def cleared(folder, size):
    """Customers asserted one by one where as many routes with a path each were taken and are gone."""
    routes = b"".join(route(i, 0, [PEER, 7, 100_000 + i]) for i in range(size))
    dump = write(folder, "dump", peer_table(1) + routes)
    return f"open d {dump}\ntake d {ALL}\nclear\n", "".join(f"assert {1_000_000 + i} 1\n" for i in range(size))


def taken_back(folder, size):
    """A path that comes, gets another verdict and goes, so many times, before sixty times as many routes have it, and a list of changes."""
    path = [PEER, 7, 9]
    prefix = bytes([24, 10, 0, 0])
    updates = write(folder, "updates", (update(path, b"", prefix) + update(path, prefix, b"")) * size)
    dump = write(folder, "dump", peer_table(1) + b"".join(route(i, 0, path) for i in range(60 * size)))
    rounds = "".join(f"take u 1\n{'assert' if i % 2 == 0 else 'unassert'} 9{' 1' if i % 2 == 0 else ''}\ntake u 1\n" for i in range(size))
    return f"role {PEER} customer\nopen u {updates}\nopen d {dump}\nchanges\n", rounds + f"take d {ALL}\nchanges\n"


# What is measured, for which sizes, and by how much the time may grow where the size doubles.
KINDS = (
    ("changes where so many peers of an AS have a path each", changes, (4_000, 8_000, 16_000), LINEAR),
    ("assertions of one customer, one provider each", assertions, (2_500, 5_000, 10_000), ROW),
    ("assertions of one customer that is on as many paths", hops, (2_000, 4_000, 8_000), LINEAR),
    ("sources that attest one customer, the same provider", sources, (2_000, 4_000, 8_000), LINEAR),
    ("sources that attest one customer, one provider each", other_sources, (500, 1_000, 2_000), ROW),
    ("roles, and the default role turned as often", roles, (5_000, 10_000, 20_000), LINEAR),
    ("the same, where these ASes have routes", own_roles, (5_000, 10_000, 20_000), LINEAR),
    ("summaries, of a thousand times as many routes", summaries, (50, 100, 200), LINEAR),
    ("filters that change nothing, of as many routes", filters, (20_000, 40_000, 80_000), LINEAR),
    ("moments, each the end of one of as many attestations", moments, (10_000, 20_000, 40_000), LINEAR),
    ("attestations of one customer, one provider each", attestations, (25_000, 50_000, 100_000), LINEAR),
    ("customers with a hundred times as many providers", rows, (25, 50, 100), ROW),
    ("customers asserted where as many paths were", cleared, (20_000, 40_000, 80_000), LINEAR),
    ("a path that comes and goes, then of many routes", taken_back, (250, 500, 1_000), LINEAR),
)


def run(program, folder, script):
    """The status, the processor seconds, and the most bytes that were held."""
    lines = write(folder, "script", script.encode())
    with open(lines, "rb") as given:
        child = subprocess.Popen([program, "run"], stdin=given, stdout=subprocess.DEVNULL)
        _, status, used = os.wait4(child.pid, 0)
    child.returncode = os.waitstatus_to_exitcode(status)
    return child.returncode, used.ru_utime + used.ru_stime, used.ru_maxrss * 1024


class Measured:
    """Lines of one kind and one size: whether all runs had status 0, and the least seconds and bytes with the lines and without them so far."""

    def __init__(self, folder, lines, size):
        self.size = size
        self.folder = os.path.join(folder, str(size))
        os.mkdir(self.folder)
        before, measured = lines(self.folder, size)
        self.scripts = (before + measured, before)
        self.least = [float("inf")] * 2
        self.held = [float("inf")] * 2
        self.ends = True

    def again(self, program):
        """Two more runs."""
        for place, script in enumerate(self.scripts):
            status, used, held = run(program, self.folder, script)
            self.ends = self.ends and status == 0
            self.least[place] = min(self.least[place], used)
            self.held[place] = min(self.held[place], held)

    def seconds(self):
        """What the lines take."""
        return max(0.0, self.least[0] - self.least[1])

    def memory(self):
        """How many bytes more are held with the lines."""
        return max(0, self.held[0] - self.held[1])


def grow_little(sizes, most):
    """Whether no doubling costs more than this factor."""
    return all(more.seconds() <= most * max(FLOOR, less.seconds()) for less, more in zip(sizes, sizes[1:]))


def measured(program, folder, lines, sizes, most):
    """The sizes of one kind. Where they seem to cost too much, they are measured again: another program may have been in the way."""
    os.mkdir(folder)
    kind = [Measured(folder, lines, size) for size in sizes]
    for turn in range(MOST_TURNS):
        for size in kind:
            size.again(program)
        if turn > 0 and grow_little(kind, most):
            break
    return kind


class Checks:
    """How many things hold and how many don't; what doesn't is said."""
    def __init__(self):
        self.passed, self.failed = 0, 0

    def __call__(self, good, what):
        if good:
            self.passed += 1
        else:
            self.failed += 1
            print(f"failed: {what}")

    def end(self):
        """Says how many, and answers the script's status."""
        print(f"{self.passed} passed, {self.failed} failed")
        return 0 if self.failed == 0 else 1


def main():
    if len(sys.argv) != 2:
        sys.exit(__doc__)
    program = os.path.abspath(sys.argv[1])
    check = Checks()
    with tempfile.TemporaryDirectory() as folder:
        for what, lines, sizes, most in KINDS:
            kind = measured(program, os.path.join(folder, lines.__name__), lines, sizes, most)
            for size in kind:
                print(f"{what:54} {size.size:>7,} {size.seconds():8.3f}", flush=True)
            check(all(size.ends for size in kind), f"{what}: each run has status 0")
            check(grow_little(kind, most), f"{what}: where the size doubles the time grows at most by {most}")
            if lines is assertions:
                check(kind[-1].seconds() <= MOST_SECONDS, f"{what}: {sizes[-1]:,} take at most {MOST_SECONDS} s")
    return check.end()


if __name__ == "__main__":
    sys.exit(main())
