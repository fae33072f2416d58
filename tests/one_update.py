#!/usr/bin/env python3
"""UPDATE messages with a path of 16,000 ASes and many prefixes cost about what messages of as many bytes with a short path cost: at most twice the
time, and 20 bytes of memory for each byte of a message, beside what is kept of it: at most 128 bytes for each hop of a path, and 20 for each route.

Usage: one_update.py PROGRAM. Writes two dumps of such messages, has the program take each, and compares the time and the peak memory. The last
line is 'N passed, M failed', and the status is 0 where none failed.
"""
import os
import struct
import subprocess
import sys
import tempfile
import time

# How many messages a dump has, and how many bytes each of them: the most that its length can say.
MESSAGES = 20
LONGEST = 65_535

# How many ASes a long path has.
LONG_PATH = 16_000

# How many bytes of memory a byte of a message may take beside what is kept of it.
MESSAGE = 20

# The processor that the program runs on. The system counts pages in lots for each one, so a peak over several is told to within some 4 bytes for
# each byte of a message, and over one much closer.
PROCESSOR = {min(os.sched_getaffinity(0))}

# How many bytes of memory a hop and a route that are kept may take.
HOP = 128
ROUTE = 20

# An AS_SEQUENCE has at most so many ASes.
SEGMENT = 255


def as_path(ases):
    """AS_PATH (RFC 4271, section 4.3) of ASes of two bytes, with a length of two bytes."""
    content = b""
    for i in range(0, len(ases), SEGMENT):
        some = ases[i : i + SEGMENT]
        content += struct.pack(">BB", 2, len(some)) + struct.pack(f">{len(some)}H", *some)
    return struct.pack(">BBH", 0x50, 2, len(content)) + content


def update(ases, prefix_of):
    """An UPDATE of LONGEST bytes: the path, and as many prefixes as find room behind it."""
    path = as_path(ases)
    room = LONGEST - 19 - 4 - len(path)
    size = len(prefix_of(0))
    number = room // size
    body = struct.pack(">HH", 0, len(path)) + path + b"".join(prefix_of(i) for i in range(number))
    return b"\xff" * 16 + struct.pack(">HB", 19 + len(body), 2) + body


def record(message):
    """A record of BGP4MP, BGP4MP_MESSAGE (RFC 6396, section 4.4.2), from 192.0.2.1 in AS 64501."""
    session = struct.pack(">HHHH", 64_501, 64_511, 0, 1) + bytes([192, 0, 2, 1, 192, 0, 2, 254])
    return struct.pack(">IHHI", 0, 16, 1, len(session) + len(message)) + session + message


def dump(length, prefix_of):
    """A dump of messages, each with another path of so many ASes."""
    return b"".join(
        record(update([64_501] + [1 + (i + number) % 50_000 for i in range(length - 1)], prefix_of))
        for number in range(MESSAGES)
    )


def everything(_):
    """0.0.0.0/0, which takes one byte."""
    return b"\x00"


def network(i):
    """One of 65,536 networks of 16 bits, each of which takes three bytes."""
    return struct.pack(">BH", 16, i)


def peak_of(pid):
    """The peak of the process's memory so far, in bytes (proc(5), VmHWM)."""
    with open(f"/proc/{pid}/status") as file:
        return next(int(line.split()[1]) * 1024 for line in file if line.startswith("VmHWM:"))


def run(program, folder, script):
    """What the program writes, its status, its processor seconds, and its peak memory in bytes. The peak is looked at behind the first line of the
    text, while the program waits: what it writes from there on is more than a pipe holds."""
    with open(os.path.join(folder, "script"), "w") as file:
        file.write(script)
    with open(os.path.join(folder, "script")) as lines:
        child = subprocess.Popen(
            [program, "run"], stdin=lines, stdout=subprocess.PIPE, preexec_fn=lambda: os.sched_setaffinity(0, PROCESSOR)
        )
        written = child.stdout.readline()
        # (until it stands still, its next piece of text unwritten)
        time.sleep(0.05)
        peak = peak_of(child.pid)
        written += child.stdout.read()
        _, status, usage = os.wait4(child.pid, 0)
        child.returncode = os.waitstatus_to_exitcode(status)
    return written.decode(), child.returncode, usage.ru_utime + usage.ru_stime, peak


# Lines whose text is more than a pipe holds: 160,000 bytes.
MORE = "judge customer 64501 64501 64500\n" * 20_000


def taken(program, folder, name, data):
    """What the best of nine runs takes beside a run without the dump: seconds, and bytes of memory."""
    path = os.path.join(folder, name)
    with open(path, "wb") as file:
        file.write(data)
    runs = [run(program, folder, f"open it {path}\ntake it {MESSAGES}\nsummary\n{MORE}") for _ in range(9)]
    empty = [run(program, folder, f"summary\n{MORE}") for _ in range(9)]
    seconds = max(0.0, min(r[2] for r in runs) - min(r[2] for r in empty))
    memory = max(0, min(r[3] for r in runs) - min(r[3] for r in empty))
    summary = runs[0][0].split("\n", 1)[0]
    print(f"{name}: {len(data):,} bytes, {seconds:.3f} s, {memory / LONGEST:.1f} bytes of memory for each byte of a message, {summary}")
    routes = int(summary.split()[2])
    return summary, runs[0][1], seconds, memory - ROUTE * routes


def main():
    program = os.path.abspath(sys.argv[1])
    passed, failed = 0, 0
    with tempfile.TemporaryDirectory() as folder:
        for what, prefix_of in (("everything", everything), ("networks", network)):
            long = taken(program, folder, f"{what}_long_path", dump(LONG_PATH, prefix_of))
            short = taken(program, folder, f"{what}_short_path", dump(2, prefix_of))
            for good, wanted in (
                (long[1] == 0 and short[1] == 0, "both dumps are taken"),
                (long[2] <= 2 * short[2] + 0.3, "a long path takes little more time"),
                (short[3] <= MESSAGE * LONGEST, f"a message takes at most {MESSAGE} bytes of memory a byte beside its routes"),
                (long[3] <= MESSAGE * LONGEST + HOP * LONG_PATH, "a long path takes at most 128 bytes a hop beside that"),
            ):
                if good:
                    passed += 1
                else:
                    failed += 1
                    print(f"failed: {what}: {wanted}")
    print(f"{passed} passed, {failed} failed")
    return 0 if failed == 0 else 1


if __name__ == "__main__":
    sys.exit(main())
