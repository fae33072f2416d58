#!/usr/bin/env python3
"""Rewrites a table dump (MRT, not compressed) as one with path identifiers (RFC 8050): with_identifiers.py COPIES < TABLE > TABLE_WITH_PATHS

Each RIB record of IPv4 or IPv6 unicast (subtypes 2 and 4 of type 13) becomes one of subtype 8 or 10, in which each entry stands COPIES times,
with the identifiers 1 to COPIES and the same attributes; all other records stay as they are. So each peer has COPIES routes for each one
that it had, of the same path and verdict. A record that would have more than 65,535 entries, or over 4 MiB, ends the run."""
import struct
import sys

WITH_PATHS = {2: 8, 4: 10}


def rewritten(body, copies):
    length = 5 + (body[4] + 7) // 8
    count, = struct.unpack_from(">H", body, length)
    out = [body[:length], struct.pack(">H", count * copies)]
    at = length + 2
    for _ in range(count):
        size, = struct.unpack_from(">H", body, at + 6)
        head, tail = body[at:at + 6], body[at + 6:at + 8 + size]
        out += [head + struct.pack(">I", number) + tail for number in range(1, copies + 1)]
        at += 8 + size
    assert at == len(body), "a record that isn't in form"
    return b"".join(out)


def main():
    copies = int(sys.argv[1])
    read, write = sys.stdin.buffer.read, sys.stdout.buffer.write
    while header := read(12):
        time, kind, subkind, length = struct.unpack(">IHHI", header)
        body = read(length)
        if kind == 13 and subkind in WITH_PATHS:
            body, subkind = rewritten(body, copies), WITH_PATHS[subkind]
        assert len(body) <= 4_194_304, "a record of more than 4 MiB"
        write(struct.pack(">IHHI", time, kind, subkind, len(body)) + body)


if __name__ == "__main__":
    main()
