#!/usr/bin/env bash
# Refuses the built program its memory, one growth after another, in four scripts: on a feed, for a router, on a dump, and on two files.
# This isn't run by tests/all.sh: it needs a C compiler and a dynamically linked program. Call N of the allocator fails, or call N and all
# behind it, for each N that a run comes to. Three outcomes are right: status 5, and what was written is a front of the whole text; the
# whole text, with its status; or a fault of the object that was refused the growth: status 3 or 4 and a front, or the text in which the
# connection of a feed or a router was not made or broke. What the router hears is a front of its answer. It prints how many there were of
# each. The last line is 'N passed, M failed', and the status is 0 where none failed.
set -u
cd "$(dirname "$0")/.." || exit
program=$PWD/crates/aspaview/out/aspaview
work=$(mktemp -d)
trap 'kill "$cache" "$router" 2>/dev/null; rm -rf "$work"' EXIT
cache=
router=
. tests/checks.bash
[ -x "$program" ] || ./aspaview run </dev/null

cat >"$work/refuse.c" <<'END'
#define _GNU_SOURCE
#include <dlfcn.h>
#include <errno.h>
#include <fcntl.h>
#include <stdlib.h>
#include <stdio.h>
#include <unistd.h>

// The call of this number fails, and all behind it where that is asked for.
static long count, at = -1, onwards;
static void *(*real_malloc)(size_t);
static void *(*real_realloc)(void *, size_t);

static int refused(void) {
    if (at < 0) {
        at = 0;
        if (getenv("REFUSE_AT")) at = atol(getenv("REFUSE_AT"));
        onwards = getenv("REFUSE_ONWARDS") && *getenv("REFUSE_ONWARDS");
    }
    count++;
    if (at > 0 && (count == at || (onwards && count > at))) {
        errno = ENOMEM;
        return 1;
    }
    return 0;
}

void *malloc(size_t size) {
    if (!real_malloc) real_malloc = dlsym(RTLD_NEXT, "malloc");
    return refused() ? NULL : real_malloc(size);
}

void *realloc(void *old, size_t size) {
    if (!real_realloc) real_realloc = dlsym(RTLD_NEXT, "realloc");
    return refused() ? NULL : real_realloc(old, size);
}

__attribute__((destructor)) static void tell(void) {
    char text[32];
    int length = snprintf(text, sizeof text, "%ld\n", count);
    int file = open(getenv("REFUSE_COUNT"), O_WRONLY | O_CREAT | O_TRUNC, 0600);
    if (file < 0 || write(file, text, length) != length) _exit(99);
}
END
gcc -shared -fPIC -O1 -o "$work/refuse.so" "$work/refuse.c" -ldl || exit

lines() {
    printf '%s\n' "$@"
}

# ---- a cache that attests, a byte at a time, and then waits for the other end

python3 - "$work/port" <<'END' &
import os, socket, sys

ANSWER = bytes.fromhex("02030007 00000008" "020b0100 00000010 0000fbf0 0000fbf1" "02070007 00000018 00000001 00000e10 00000258 00001c20")
server = socket.create_server(("127.0.0.1", 0))
with open(sys.argv[1] + "~", "w") as port:
    port.write(str(server.getsockname()[1]))
os.rename(sys.argv[1] + "~", sys.argv[1])
while True:
    connection, _ = server.accept()
    connection.setsockopt(socket.IPPROTO_TCP, socket.TCP_NODELAY, 1)
    try:
        if connection.recv(8):
            for byte in ANSWER:
                connection.send(bytes([byte]))
            while connection.recv(64):
                pass
    except OSError:
        pass
    connection.close()
END
cache=$!
until [ -e "$work/port" ]; do sleep 0.02; done

# ---- a router that calls whenever somebody listens, asks for everything, a byte at a time, and tells if it hears anything but a front of it

place=$(free_port)
touch "$work/misheard"
python3 - "$place" "$work/misheard" <<'END' &
import socket, sys, time

QUERY = bytes.fromhex("02020000 00000008")
ANSWER = bytes.fromhex("02030007 00000008" "020b0100 00000010 0000fbf0 0000fbf1" "02070007 00000018 00000000 00000e10 00000258 00001c20")
while True:
    heard = b""
    with socket.socket() as router:
        try:
            router.connect(("127.0.0.1", int(sys.argv[1])))
            for byte in QUERY:
                router.send(bytes([byte]))
            router.shutdown(socket.SHUT_WR)
            while piece := router.recv(64):
                heard += piece
        except OSError:
            time.sleep(0.002)
    if not ANSWER.startswith(heard):
        with open(sys.argv[2], "a") as misheard:
            print(heard.hex(), file=misheard)
END
router=$!

# ---- the four scripts, with their texts

judged=('judge customer 64497 64497 64496' 'judge customer 64498 64498 64496')
lines "feed c 127.0.0.1:$(cat "$work/port")" 'take c 2' "${judged[0]}" 'take c 1' "${judged[@]}" >"$work/feed.script"
lines unknown valid invalid >"$work/feed.text"
gone='cause 38 StreamOver'
lines '! line 1 c unreachable' "! line 2 $gone" unknown "! line 4 $gone" unknown unknown >"$work/feed.fault1"
lines '! line 1 c lost' "! line 2 $gone" unknown "! line 4 $gone" unknown unknown >"$work/feed.fault2"
lines '! line 2 c lost' unknown "! line 4 $gone" unknown unknown >"$work/feed.fault3"
lines unknown '! line 4 c lost' unknown unknown >"$work/feed.fault4"

lines 'assert 64496 64497' "serve 127.0.0.1:$place 7 1" >"$work/serve.script"
lines 'served 1 answers 1' >"$work/serve.text"
lines '! line 2 serve unreachable' 'served 0 answers 0' >"$work/serve.fault1"
lines '! line 2 serve lost' 'served 1 answers 0' >"$work/serve.fault2"
lines '! line 2 serve lost' 'served 1 answers 1' >"$work/serve.fault3"

# bytes HEX.. of a record or a payload
bytes() {
    python3 -c 'import sys; sys.stdout.buffer.write(bytes.fromhex("".join(sys.argv[1:])))' "$@"
}
head=0000fbf50000fbff00000001c0000201c00002fe
bytes 00000000000d000100000022 c00002fe00000002 020a000001c00002010000fbf5 020a000002c00002020000fbf6 >"$work/dump"
bytes 00000000000d00020000001f 0000000018c6336400010000 00000000000d 40020a02020000fbf50000fbf4 >>"$work/dump"
bytes 0000000000100004 0000002f $head ffffffffffffffffffffffffffffffff 001b020004 18c63364 0000 >>"$work/dump"
lines 'assert 64500 64501' 'role 64501 customer' "open d $work/dump" 'take d 2' changes 'take d 1' changes changes 'take d 1' 'take d 1' \
    >"$work/dump.script"
lines '192.0.2.1 64501 198.51.100.0/24 none valid' '192.0.2.1 64501 198.51.100.0/24 valid none' "! line 10 $gone" >"$work/dump.text"

bytes 3011 a003020101 020300fbf0 3005 020300fbf1 >"$work/payload"
cat >"$work/slurm" <<'END'
{"slurmVersion":2,"validationOutputFilters":{"prefixFilters":[],"bgpsecFilters":[],"aspaFilters":[{"customerAsn":64496}]},"locallyAddedAssertions":{"prefixAssertions":[],"bgpsecAssertions":[],"aspaAssertions":[{"customerAsn":64496,"providerAsns":[64499]}]}}
END
lines "aspa a $work/payload" "slurm $work/slurm" 'judge customer 64499 64499 64496' 'judge customer 64497 64497 64496' >"$work/files.script"
lines valid invalid >"$work/files.text"

# ---- the runs

# run NAME AT [ONWARDS]: what it wrote, its status, and how many calls it came to.
run() {
    LD_PRELOAD=$work/refuse.so REFUSE_COUNT=$work/count REFUSE_AT=$2 REFUSE_ONWARDS=${3-} "$program" run <"$work/$1.script" >"$work/out" 2>"$work/err"
    status=$?
    read -r count <"$work/count"
}

# is_front NAME: what was written is a front of the whole text
is_front() {
    cmp -s -n "$(stat -c %s "$work/out")" "$work/out" "$work/$1.text" && [ "$(stat -c %s "$work/out")" -le "$(stat -c %s "$work/$1.text")" ]
}

# outcome NAME STATUS: which of the three it is
outcome() {
    local fault
    if cmp -s "$work/out" "$work/$1.text" && [ "$status" -eq "$2" ]; then
        echo whole
    elif is_front "$1" && [ "$status" -eq 5 ]; then
        echo starved
    elif is_front "$1" && { [ "$status" -eq 3 ] || [ "$status" -eq 4 ]; }; then
        echo fault
    else
        for fault in "$work/$1".fault*; do
            if cmp -s "$work/out" "$fault" && [ "$status" -eq 1 ]; then
                echo fault
                return
            fi
        done
        echo wrong
    fi
}

passed=0
failed=0
for script in 'feed 0' 'serve 0' 'dump 1' 'files 0'; do
    read -r name wanted <<<"$script"
    run "$name" 0
    if [ "$(outcome "$name" "$wanted")" != whole ]; then
        echo "$name: with all memory it doesn't write what it should"
        failed=$((failed + 1))
    fi
    all=$count
    for onwards in '' 1; do
        declare -A seen=([whole]=0 [starved]=0 [fault]=0 [wrong]=0)
        for ((at = 1; at <= all; at++)); do
            run "$name" "$at" $onwards
            what=$(outcome "$name" "$wanted")
            [ ! -s "$work/err" ] || what=wrong
            seen[$what]=$((seen[$what] + 1))
            if [ "$what" = wrong ]; then
                echo "$name: call $at of $all refused${onwards:+, and all behind it}: status $status, text:"
                cat "$work/out" "$work/err"
            fi
        done
        how='one at a time'
        [ -z "$onwards" ] || how='from one on'
        echo "$name: $all calls, refused $how: ${seen[starved]} ended with 5, ${seen[whole]} wrote all, ${seen[fault]} had a fault"
        passed=$((passed + seen[whole] + seen[starved] + seen[fault]))
        failed=$((failed + seen[wrong]))
    done
done
if [ -s "$work/misheard" ]; then
    echo 'the router heard what is no front of its answer'
    cat "$work/misheard"
    failed=$((failed + 1))
fi
echo "$passed passed, $failed failed"
[ "$failed" -eq 0 ]
