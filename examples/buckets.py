#!/usr/bin/env python3
"""Counts the records of an MRT file by their time: python3 examples/buckets.py SECONDS FILE

Each line has the time at which an interval of so many seconds begins, in UTC, and how many records fall into it. The records of a line
follow those of the line before, so lines 'take NAME COUNT' take one interval after another. A record with an earlier time than one before
it counts into the interval of that one, and an interval without records has no line. FILE may be a pipe. Where it is broken, or ends within
a record, the records before are counted, and the status is 1."""
import datetime
import struct
import sys

LONGEST = 4_194_304


def times(file):
    """The time of each record, in seconds since 1970; then EOFError where the file is broken or ends within the next one."""
    while head := file.read(12):
        if len(head) == 12:
            time, _, _, length = struct.unpack(">IHHI", head)
        if len(head) < 12 or length > LONGEST or len(file.read(length)) < length:
            raise EOFError
        yield time


def buckets(file, seconds):
    """Each interval with its number of records; then EOFError as before."""
    begun, count, fault = 0, 0, None
    try:
        for time in times(file):
            if time >= begun + seconds and count > 0:
                yield begun, count
                count = 0
            if count == 0:
                begun = time - time % seconds
            count += 1
    except EOFError as met:
        fault = met
    if count > 0:
        yield begun, count
    if fault:
        raise fault


def main():
    if len(sys.argv) != 3:
        sys.exit(__doc__.split("\n")[0])
    if not sys.argv[1].isdecimal() or (seconds := int(sys.argv[1])) < 1:
        sys.exit("buckets.py: SECONDS must be a whole number, 1 or more")
    try:
        with open(sys.argv[2], "rb") as file:
            for begun, count in buckets(file, seconds):
                time = datetime.datetime.fromtimestamp(begun, datetime.timezone.utc)
                print(f"{time:%Y-%m-%dT%H:%M:%SZ} {count}")
    except EOFError:
        sys.exit("buckets.py: the file is broken, or ends, within the next record, which isn't counted")


if __name__ == "__main__":
    main()
