#!/usr/bin/env python3
# newases.py COUNT FILE [TIMES]: writes a dump of COUNT announcements (RFC 6396, BGP4MP_MESSAGE_AS4), each of one prefix with a path of 16,000
# ASes. TIMES of them one after another, one where it isn't given, have the same ASes, each in an order of its own, and no others have these.
# Where TIMES is 0 each AS comes once, and the ASes are chosen so that the words of their hops share 65,536 slots of a map of up to 1,048,576.
import random
import struct
import sys

PEER = 64501
ASES = 16000


def attribute(flags, kind, content):
    return struct.pack(">BBH", flags | 0x10, kind, len(content)) + content


def announcement(path, prefix):
    segments = [path[at : at + 255] for at in range(0, len(path), 255)]
    as_path = b"".join(struct.pack(f">BB{len(ases)}I", 2, len(ases), *ases) for ases in segments)
    attributes = attribute(0x40, 1, b"\0") + attribute(0x40, 2, as_path)
    body = struct.pack(">HH", 0, len(attributes)) + attributes + prefix
    return b"\xff" * 16 + struct.pack(">HB", 19 + len(body), 2) + body


def record(message):
    body = struct.pack(">IIHHII", PEER, 64511, 0, 1, 0xC0000201, 0xC00002FE) + message
    return struct.pack(">IHHI", 0, 16, 4, len(body)) + body


# the place of a hop's word, as `spot` of word_map gives it
def place(low, high):
    return (low << 32 | high) * 11400714819323198485 % 2**64 >> 32


# a path of rising ASes behind this one, of which each is the next whose hop has one of the first places
def alike(first):
    path = [first]
    while len(path) < ASES:
        last = path[-1]
        path.append(next(x for x in range(last + 1, 2**32) if place(last, x) % 2**20 < 65536))
    return path


def main():
    count, name = int(sys.argv[1]), sys.argv[2]
    times = int(sys.argv[3]) if len(sys.argv) > 3 else 1
    shuffled = random.Random(1)
    first = 100000
    with open(name, "wb") as dump:
        for number in range(count):
            if times == 0:
                path = alike(first)
                first = path[-1] + 1
            else:
                first = 100000 + number // times * ASES
                path = list(range(first, first + ASES))
                if number % times:
                    shuffled.shuffle(path)
            prefix = bytes([24, 10, number >> 8, number & 255])
            dump.write(record(announcement([PEER] + path, prefix)))


main()
