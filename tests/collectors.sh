#!/usr/bin/env bash
# Tests of examples/collectors/: eight jobs over small dumps, plain and packed, of which one fails and is started again; by hand, by GNU parallel
# here and over ssh, and by Slurm, of which a cluster of this machine alone is started where none answers. What the jobs find was worked out by
# hand from the paths of examples/make_dumps.py. The last line is 'N passed, M failed', and the status is 0 where none failed.
set -u
cd "$(dirname "$0")/.." || exit
program=$PWD/crates/aspaview/out/aspaview
job=$PWD/examples/collectors/job.py
merge=$PWD/examples/collectors/merge.py
work=$(readlink -f "$(mktemp -d)")
server=
daemons=()
. tests/checks.bash
. tests/slurm_here.bash

# clean: ends what was started.
clean() {
    [ -z "$server" ] || kill "$server"
    stop_slurm
    rm -rf "$work"
}
trap clean EXIT
if ! command -v python3 >/dev/null; then
    echo 'there is no python3'
    echo '0 passed, 0 failed'
    exit
fi
# `rt ci` has built the program; where it hasn't, the launcher does.
[ -x "$program" ] || ./aspaview run </dev/null
export ASPAVIEW=$program PYTHONDONTWRITEBYTECODE=1

# ---- the dumps of eight jobs: four of the table with leaks, three of the other table, and one of it with updates behind it

cp examples/{leaked,table,updates}.mrt examples/neighbours.base64 "$work/"
cd "$work" || exit
for name in leaked table; do
    gzip -9nk "$name.mrt"
    python3 -c 'import bz2, sys; sys.stdout.buffer.write(bz2.compress(open(sys.argv[1], "rb").read()))' "$name.mrt" >"$name.mrt.bz2"
done
printf '%s\n' 'aspa64 rpki neighbours.base64' 'role 64501 customer' 'role 64502 peer' >setup.txt
head -c -9 leaked.mrt.gz >broken.mrt.gz
cat >jobs.txt <<'end'
# collector and hour, and its dumps
a-00 leaked.mrt
a-01 leaked.mrt.gz
b-00 table.mrt.bz2
b-01 table.mrt.gz updates.mrt
c-00 table.mrt
c-01 leaked.mrt.bz2
d-00 broken.mrt.gz
d-01 table.mrt.gz
end
if ! command -v bunzip2 >/dev/null; then
    echo 'skipped: .bz2, since there is no bunzip2'
    sed -i 's/\.bz2/.gz/' jobs.txt
fi

# with and without d-00: 3 routes of 2 paths went by 64501 in the first table, and 1 of 1 in the other one
without='64502 64540 64540 64503 routes 3 jobs 3 paths a-00:1 a-01:1 c-01:1
64503 64501 64501 here routes 12 jobs 6 paths a-00:2 a-01:2 b-00:1 c-00:1 c-01:2 d-01:1
64503 64502 64502 here routes 1 jobs 1 paths b-01:1
64503 64540 64541 64502 routes 3 jobs 3 paths a-00:1 a-01:1 c-01:1
summary jobs 7 routes 54 valid 31 unknown 4 invalid 19 customers 6 6 passed 0 refused 0'
all='64502 64540 64540 64503 routes 4 jobs 4 paths a-00:1 a-01:1 c-01:1 d-00:1
64503 64501 64501 here routes 15 jobs 7 paths a-00:2 a-01:2 b-00:1 c-00:1 c-01:2 d-00:2 d-01:1
64503 64502 64502 here routes 1 jobs 1 paths b-01:1
64503 64540 64541 64502 routes 4 jobs 4 paths a-00:1 a-01:1 c-01:1 d-00:1
summary jobs 8 routes 64 valid 36 unknown 4 invalid 24 customers 6 6 passed 0 refused 0'
why_failed='! d-00 missing: broken.mrt.gz can'"'"'t be unpacked: status 1'

# merged WHAT RESULTS STATUS TEXT: what merge.py makes of the results.
merged() {
    check "$1: merged" "$4
$3" "$(python3 "$merge" jobs.txt setup.txt "$2"; echo $?)"
}

# mended: the dump that was broken is there.
mended() {
    cp leaked.mrt.gz broken.mrt.gz
}

# through WHAT RESULTS COMMAND..: the command does the eight jobs, of which one fails; then all are started again, with its dump mended.
through() {
    local what=$1 results=$2
    shift 2
    head -c -9 leaked.mrt.gz >broken.mrt.gz
    check "$what: a job fails: status" yes "$("$@" "$results" >"$work/out" 2>&1 || echo yes)"
    merged "$what: a job fails" "$results" 1 "$without
$why_failed"
    mended
    check "$what: started again: status" 0 "$("$@" "$results" >"$work/out" 2>&1; echo $?)"
    merged "$what: started again" "$results" 0 "$all"
    check "$what: what failed is gone" '' "$(find "$results" -name '*.failed' -o -name '*.part')"
}

# ---- by hand, one after another

by_hand() {
    "$job" jobs.txt setup.txt "$1" 1 2 3 4 5 6 7 8
}
through 'by hand' by_hand_results by_hand
check 'once more: status' 0 "$(by_hand by_hand_results; echo $?)"
merged 'once more' by_hand_results 0 "$all"
check 'two at once: statuses' '0 0' "$(rm by_hand_results/a-01.txt
    "$job" jobs.txt setup.txt by_hand_results 2 &
    "$job" jobs.txt setup.txt by_hand_results 2
    one=$?
    wait $!
    echo "$one $?")"
merged 'two at once' by_hand_results 0 "$all"

# ended in the midst: its dump is a pipe that gives half of it and no more
mkfifo slow.mrt
sed 's/^a-00 leaked/a-00 slow/' jobs.txt >slow.txt
rm by_hand_results/a-00.txt
"$job" slow.txt setup.txt by_hand_results 1 2>/dev/null &
slow=$!
timeout 20 bash -c "{ head -c 200 leaked.mrt && kill -KILL $slow; } >slow.mrt"
wait $slow 2>/dev/null
merged 'a job that was killed' by_hand_results 1 '64502 64540 64540 64503 routes 3 jobs 3 paths a-01:1 c-01:1 d-00:1
64503 64501 64501 here routes 12 jobs 6 paths a-01:2 b-00:1 c-00:1 c-01:2 d-00:2 d-01:1
64503 64502 64502 here routes 1 jobs 1 paths b-01:1
64503 64540 64541 64502 routes 3 jobs 3 paths a-01:1 c-01:1 d-00:1
summary jobs 7 routes 54 valid 31 unknown 4 invalid 19 customers 6 6 passed 0 refused 0
! a-00 missing'
check 'a job that was killed, again: status' 0 "$("$job" jobs.txt setup.txt by_hand_results 1; echo $?)"
merged 'a job that was killed, again' by_hand_results 0 "$all"

# ---- what fails a job and what doesn't

# (its Python by its own name, since what is on the PATH may be a script that looks for more)
echo 'x leaked.mrt.gz' >one.txt
check 'no unpacking program: status' 1 "$(PATH=/nowhere "$(python3 -c 'import sys; print(sys.executable)')" "$job" one.txt setup.txt one 1 2>err; echo $?)"
check 'no unpacking program: why' "gunzip can't be run: No such file or directory" "$(cat one/x.failed)"
check 'no list: status and lines' '1 1' "$("$job" nothing.txt setup.txt one 1 2>err; echo "$? $(wc -l <err)")"

# fails WHAT LINE WHY: a job of this line fails, and says why.
fails() {
    echo "x $2" >one.txt
    rm -rf one
    check "$1: status, and why" "1x: $3" "$("$job" one.txt setup.txt one 1 2>err >/dev/null; echo -n $?; cat err)"
    check "$1: merged" "summary jobs 0 routes 0 valid 0 unknown 0 invalid 0 customers 0 0 passed 0 refused 0
! x missing: $3" "$(python3 "$merge" one.txt setup.txt one)"
}
head -c -1 table.mrt >cut.mrt
fails 'a cut dump' cut.mrt 'refused: ! line 6 dump.1 unit 5 cause 27 CutShort'
fails 'a dump that is not there' no.mrt 'refused: ! line 5 cause 37 NoFile'
(
    ASPAVIEW=$work/no
    fails 'a program that is not there' table.mrt "$work/no can't be run: No such file or directory"
    printf '#!/bin/sh\nexit 5\n' >dies
    chmod 755 dies
    ASPAVIEW=$work/dies
    fails 'a program that fails' table.mrt.gz "$work/dies ended with status 5"
)
echo AA== >wrong.base64
cp setup.txt setup.good
sed -i 's/neighbours/wrong/' setup.txt
fails 'a source that is not right' table.mrt 'refused: ! line 1 rpki unit 1 cause 5 NotDer'
check 'results of another setup' 8 \
    "$(python3 "$merge" jobs.txt setup.txt by_hand_results | grep -c '^! [a-d]-0[01] is of other files, or of another setup$')"
mv setup.good setup.txt
# (the second record of the table, before its peer table: it is refused, and the rest counts)
python3 -c 'import sys
data = open("table.mrt", "rb").read()
ends = [0]
while ends[-1] < len(data):
    ends.append(ends[-1] + 12 + int.from_bytes(data[ends[-1] + 8 : ends[-1] + 12], "big"))
sys.stdout.buffer.write(data[ends[1] : ends[2]] + data)' >odd.mrt
echo 'x odd.mrt' >one.txt
rm -rf one
check 'a refused record: status' 0 "$("$job" one.txt setup.txt one 1 2>&1; echo $?)"
check 'a refused record: merged' 'summary jobs 1 routes 6 valid 4 unknown 1 invalid 1 customers 6 6 passed 0 refused 1' \
    "$(python3 "$merge" one.txt setup.txt one | tail -n 1)"
check 'a name twice: status' 1 "$(printf 'x table.mrt\n%.0s' 1 2 >twice.txt; "$job" twice.txt setup.txt one 1 2>/dev/null; echo $?)"
check 'no such job: status' 1 "$("$job" one.txt setup.txt one 2 2>/dev/null; echo $?)"

# ---- by GNU parallel, here and over ssh

by_parallel() {
    timeout 60 parallel --will-cite --jobs 2 "$job" jobs.txt setup.txt "$1" ::: 1 2 3 4 5 6 7 8
}
by_ssh() {
    timeout 60 parallel --will-cite --ssh "ssh -F $work/ssh/client" --sshlogin 1/one,1/two --workdir "$work" --env ASPAVIEW \
        "$job" jobs.txt setup.txt "$1" ::: 1 2 3 4 5 6 7 8
}

# serve_ssh: an ssh server of this user at a port of 127.0.0.1, which takes the test's own key alone.
serve_ssh() {
    local port i
    port=$(free_port)
    mkdir -m 700 ssh
    # (what Debian's service makes for it)
    [ "$(id -u)" -ne 0 ] || mkdir -p /run/sshd
    ssh-keygen -q -t ed25519 -N '' -f ssh/host && ssh-keygen -q -t ed25519 -N '' -f ssh/key || return 1
    printf '%s\n' "ListenAddress 127.0.0.1:$port" "HostKey $work/ssh/host" "AuthorizedKeysFile $work/ssh/key.pub" 'StrictModes no' 'UsePAM no' \
        'PasswordAuthentication no' "PidFile $work/ssh/pid" >ssh/server
    printf '%s\n' 'Host one two' 'HostName 127.0.0.1' "Port $port" "User $(id -un)" "IdentityFile $work/ssh/key" 'IdentitiesOnly yes' \
        'StrictHostKeyChecking no' "UserKnownHostsFile $work/ssh/known" 'LogLevel ERROR' >ssh/client
    "$(PATH=$PATH:/usr/sbin command -v sshd)" -D -e -f ssh/server 2>ssh/log &
    server=$!
    for ((i = 0; i < 50; i++)); do
        ssh -F ssh/client one true 2>/dev/null && return
        sleep 0.1
    done
    kill "$server"
    server=
    return 1
}
if command -v parallel >/dev/null && parallel --version 2>/dev/null | grep -q '^GNU parallel'; then
    through 'GNU parallel' parallel_results by_parallel
    if PATH=$PATH:/usr/sbin command -v sshd >/dev/null && command -v ssh-keygen >/dev/null && serve_ssh; then
        through 'GNU parallel over ssh' ssh_results by_ssh
    else
        echo 'skipped: GNU parallel over ssh, since there is no sshd, or it lets nobody in here'
    fi
else
    echo 'skipped: GNU parallel, which is not there'
fi

# ---- by Slurm: a cluster whose nodes are on this machine, and so see the test's folder

by_slurm() {
    timeout 60 sbatch --quiet --wait --array=1-8 --output=/dev/null "$job" jobs.txt setup.txt "$1"
}
nodes=$(timeout 10 sinfo --noheader --Node --format '%N %T' 2>/dev/null | awk '$2 ~ /^(idle|mixed|allocated)$/ { print $1 }' | paste -sd ,)
if [ -n "$nodes" ] && scontrol show node "$nodes" | grep -o 'NodeHostName=[^ ]*' | grep -qvxE "NodeHostName=(localhost|$(hostname -s))"; then
    echo 'skipped: Slurm, whose nodes are other machines than this one'
elif [ -n "$nodes" ] || { can_slurm && start_slurm "$work/slurm"; }; then
    through Slurm slurm_results by_slurm
else
    echo 'skipped: Slurm, of which no cluster answers here, and none can be started'
fi

echo "$(wc -l <"$work/passed") passed, $(wc -l <"$work/failed") failed"
[ ! -s "$work/failed" ]
