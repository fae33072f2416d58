#!/usr/bin/env python3
"""What people ask costs in proportion to what it goes over and prints, also on tables made to be slow: where both double the time grows at most
by the factor 3, counted from 0.15 s on. And it holds at most 4 MB more than the same script without the questions, however long its text is;
only `neighbours`, `silent` and the row of one customer may hold so many bytes more for each line of one answer, and who lists first who is beside
whom so many for each route.

Usage: asked_costs.py PROGRAM. Runs scripts with questions of each kind and prints a table of the processor seconds that they take and of the
bytes that they hold, beside a run of the same script without them. The last line is 'N passed, M failed', and the status is 0 where none failed.
"""
import base64
import json
import os
import sys
import tempfile

from costs import ALL, Checks, PEER, grow_little, measured, payload, peer_table, route, write

# By how much the time may grow where the size doubles.
LINEAR = 3.0

# The bytes that questions may hold; and those that they may hold more for each of a size, where they go over routes or rows and write as they
# go, where they have to collect what they write, and where hops are listed first.
MEMORY = 4_000_000
WRITES, COLLECTS, LISTS = 0, 400, 1_000

# The AS in the middle of most paths, and the least of those that are on one path each.
HUB, FIRST = 7, 100_000


def table(folder, size):
    """One AS beside as many others: each route of the one peer has an origin of its own behind the hub."""
    dump = write(folder, "dump", peer_table(1) + b"".join(route(i, 0, [PEER, HUB, FIRST + i]) for i in range(size)))
    return f"open d {dump}\ntake d {ALL}\n"


def many_peers(folder, size):
    """A peer for each route, with an AS of its own, all of them behind the hub."""
    dump = write(folder, "dump", peer_table(size, FIRST, 1) + b"".join(route(i, i, [FIRST + i, HUB, 9]) for i in range(size)))
    return f"open d {dump}\ntake d {ALL}\n"


def one_path(folder, size):
    """As many routes with one path."""
    dump = write(folder, "dump", peer_table(1) + b"".join(route(i, 0, [PEER, HUB, 9]) for i in range(size)))
    return f"open d {dump}\ntake d {ALL}\n"


def long_path(folder, size):
    """One route, on whose path the hub stands between as many others."""
    path = [PEER] + [asn for i in range(size) for asn in (HUB, FIRST + i)]
    dump = write(folder, "dump", peer_table(1) + route(0, 0, path))
    return f"open d {dump}\ntake d {ALL}\n"


# ---- the questions that are measured, each behind what isn't; an assertion of an AS that is on no path lists who is beside whom

ASSERTION = "assert 1 2\n"


def neighbours(folder, size):
    return table(folder, size) + ASSERTION, f"neighbours {HUB}\n" * 40


def neighbours_first(folder, size):
    return table(folder, size), f"neighbours {HUB}\n"


def neighbours_each(folder, size):
    return table(folder, size) + ASSERTION, "".join(f"neighbours {FIRST + i}\n" for i in range(size))


def neighbours_peers(folder, size):
    return many_peers(folder, size) + ASSERTION, f"neighbours {HUB}\n" * 40


def neighbours_routes(folder, size):
    return one_path(folder, size) + ASSERTION, f"neighbours {HUB}\n" * 40


def neighbours_path(folder, size):
    return long_path(folder, size) + ASSERTION, f"neighbours {HUB}\n" * 10


def silent(folder, size):
    return table(folder, size), "silent\n" * 20


def silent_peers(folder, size):
    return "role default mutual\n" + many_peers(folder, size), "silent\n" * 20


def silent_nobody(folder, size):
    return table(folder, size) + "".join(f"assert {FIRST + i} {HUB}\n" for i in range(size)) + f"assert {HUB} {PEER}\n", "silent\n" * 20


def sent(folder, size):
    return "role default customer\n" + table(folder, size), "sent customer 64603 64999\n" * 20


def sent_peers(folder, size):
    return "role default customer\n" + many_peers(folder, size), "sent customer 64603 64999\n" * 20


def sent_nothing(folder, size):
    return many_peers(folder, size), "sent customer 64603 64999\n" * 40


def sent_far(folder, size):
    """Over as many ASes as a line has room for."""
    before = "role default customer\n" + table(folder, size)
    return before, "sent customer" + " 1 2" * 1_020 + "\n"


def routes(folder, size):
    return table(folder, size), f"routes through {HUB}\n" * 10


def routes_few(folder, size):
    return table(folder, size), f"routes origin {FIRST}\nroutes within 11.0.0.0/23\nroutes covering 11.0.0.1/32\nroutes peer 5\n" * 20


def routes_peers(folder, size):
    return many_peers(folder, size), f"routes verdict unknown within 0.0.0.0/0 through {HUB}\n" * 10


def peers(folder, size):
    before = "".join(f"role {1_000_000 + i} peer\n" for i in range(size))
    return before + many_peers(folder, size), "peers\n" * 10


def explain(folder, size):
    keys = (f"10.0.0.0 {PEER} {11 + (i >> 16)}.{i >> 8 & 255}.{i & 255}.0/24" for i in range(size))
    return table(folder, size), "".join(f"explain {key}\n" for key in keys)


def attests(folder, size):
    """As many customers with some providers each."""
    file = write(folder, "payloads", b"".join(payload(FIRST + i, range(1, 9)) for i in range(size)))
    return f"aspa a {file}\n", "attests\n" * 20


def attests_long(folder, size):
    """One customer with as many providers."""
    file = write(folder, "file", json.dumps({"aspas": [{"customer": 1, "providers": list(range(FIRST, FIRST + size))}]}).encode())
    return f"validated a {file}\n", "attests\nattests 1\n" * 20


def attests_sources(folder, size):
    """One customer that as many sources attest."""
    file = write(folder, "file", payload(1, [2]))
    return "".join(f"aspa s{i} {file}\n" for i in range(size)), "attests 1\n" * 20


def attests_ends(folder, size):
    """One customer with as many attestations in one source, each with an end of its own, which come in no order."""
    order = sorted(range(size), key=lambda i: i * 7919 % size)
    file = write(folder, "lines", b"".join(base64.b64encode(payload(1, [FIRST + i])) + b" %d\n" % (1 + i) for i in order))
    return f"aspa64 a {file}\nat {size // 2}\n", "attests 1\n" * 10


def attests_each(folder, size):
    """Each of as many customers."""
    file = write(folder, "payloads", b"".join(payload(FIRST + i, [1]) for i in range(size)))
    return f"aspa a {file}\n", "".join(f"attests {FIRST + i}\n" for i in range(size))


# What is asked, for which sizes, and what it may hold for each.
SIZES = (10_000, 20_000, 40_000)
KINDS = (
    ("neighbours of one AS beside as many", neighbours, SIZES, COLLECTS),
    ("the same, right behind the routes", neighbours_first, SIZES, LISTS),
    ("neighbours of each of as many", neighbours_each, SIZES, WRITES),
    ("neighbours, a peer for each route", neighbours_peers, SIZES, COLLECTS),
    ("neighbours, of as many routes with one path", neighbours_routes, SIZES, WRITES),
    ("neighbours, between as many on one path", neighbours_path, (2_000, 4_000, 8_000), COLLECTS),
    ("silent, one AS beside as many", silent, SIZES, COLLECTS),
    ("silent, a peer for each route", silent_peers, SIZES, COLLECTS),
    ("silent, where nobody is", silent_nobody, (5_000, 10_000, 20_000), WRITES),
    ("sent, one AS beside as many", sent, SIZES, WRITES),
    ("sent, a peer for each route", sent_peers, SIZES, WRITES),
    ("sent, where nothing is", sent_nothing, SIZES, WRITES),
    ("sent over 2,040 ASes", sent_far, (250, 500, 1_000), WRITES),
    ("routes through one AS beside as many", routes, SIZES, WRITES),
    ("routes, few of as many", routes_few, SIZES, WRITES),
    ("routes, a peer for each route", routes_peers, SIZES, WRITES),
    ("peers, one for each route, and as many roles", peers, SIZES, WRITES),
    ("explain each of as many routes", explain, SIZES, WRITES),
    ("attests, as many customers", attests, SIZES, WRITES),
    ("attests, as many providers of one customer", attests_long, SIZES, COLLECTS),
    ("attests, of one in as many sources", attests_sources, (2_000, 4_000, 8_000), COLLECTS),
    ("attests, of one with as many ends", attests_ends, SIZES, COLLECTS),
    ("attests of each of as many customers", attests_each, SIZES, WRITES),
)


def main():
    if len(sys.argv) != 2:
        sys.exit(__doc__)
    program = os.path.abspath(sys.argv[1])
    check = Checks()
    with tempfile.TemporaryDirectory() as folder:
        for what, lines, sizes, each in KINDS:
            kind = measured(program, os.path.join(folder, lines.__name__), lines, sizes, LINEAR)
            for size in kind:
                print(f"{what:48} {size.size:>7,} {size.seconds():8.3f} s {size.memory():>12,} bytes", flush=True)
            check(all(size.ends for size in kind), f"{what}: each run has status 0")
            check(grow_little(kind, LINEAR), f"{what}: where the size doubles the time grows at most by {LINEAR}")
            few = all(size.memory() <= MEMORY + each * size.size for size in kind)
            check(few, f"{what}: at most {MEMORY:,} bytes, and {each} for each, are held")
    return check.end()


if __name__ == "__main__":
    sys.exit(main())
