#!/usr/bin/env bash
# Tests of the memory that the built program takes for dumps of long paths and one change of an attestation behind them, which are what takes
# the most for each byte of a dump: at most 40 bytes a byte. The last line is 'N passed, M failed', and the status is 0 where none failed.
set -u
cd "$(dirname "$0")/.." || exit
program=$PWD/crates/aspaview/out/aspaview
work=$(mktemp -d)
trap 'rm -rf "$work"' EXIT
passed=0
failed=0
[ -x "$program" ] || ./aspaview run </dev/null

# takes WHAT COUNT TIMES: the dump of newases.py is taken whole, within the bound.
takes() {
    local given status routes used
    python3 tests/newases.py "$2" "$work/dump" "$3"
    # the assertion lists the hops of all paths
    printf '%s\n' "open d $work/dump" 'take d 100000000' 'assert 1 2' 'summary' >"$work/script"
    given=$(stat -c %s "$work/dump")
    read -r status routes used < <(python3 -c '
import os, subprocess, sys
with open(sys.argv[2]) as script:
    run = subprocess.Popen([sys.argv[1], "run"], stdin=script, stdout=subprocess.PIPE)
    words = run.stdout.read().decode().split()
    _, ended, usage = os.wait4(run.pid, 0)
print(os.waitstatus_to_exitcode(ended), words[2], usage.ru_maxrss * 1024)
' "$program" "$work/script")
    echo "$1: a dump of $given bytes, status $status, $routes routes, $used bytes of memory"
    if [ "$status $routes" = "0 $2" ] && [ "$used" -le $((40 * given)) ]; then
        passed=$((passed + 1))
    else
        failed=$((failed + 1))
        echo "failed: $1"
    fi
}

takes 'each AS comes once' 50 1
takes 'each AS comes twice, with other neighbours' 50 2
takes 'each AS comes five times, with other neighbours' 50 5
takes 'the same ASes in other orders' 50 50
takes 'as many hops as make the slots of their words double' 41 1
takes 'hops whose words share their slots' 21 0

echo "$passed passed, $failed failed"
[ "$failed" -eq 0 ]
