# A Slurm cluster of this machine alone, for a script of this folder, which reads this file: a controller and the nodes `one` and `two`, at ports
# of 127.0.0.1, with all files in a folder of the script. It needs root, and the programs of Debian's slurm-wlm and munge.

# can_slurm: whether such a cluster can be had.
can_slurm() {
    local it
    [ "$(id -u)" -eq 0 ] || return 1
    for it in munged slurmctld slurmd sbatch sinfo; do
        PATH=$PATH:/usr/sbin:/sbin command -v "$it" >/dev/null || return 1
    done
}

# start_slurm FOLDER: starts it, and returns when both nodes are idle; SLURM_CONF is set then. `daemons` has the ids of what it started.
start_slurm() {
    local dir=$1 host node i
    PATH=$PATH:/usr/sbin:/sbin
    host=$(hostname -s)
    daemons=()
    mkdir -p "$dir/state" "$dir/spool.one" "$dir/spool.two"
    chmod 755 "$dir"
    (umask 077 && head -c 128 /dev/urandom >"$dir/munge.key")
    munged --foreground --force --key-file="$dir/munge.key" --socket="$dir/munge.socket" --pid-file="$dir/munge.pid" \
        --seed-file="$dir/munge.seed" --log-file="$dir/munge.log" --num-threads=2 >"$dir/munged.out" 2>&1 &
    daemons+=($!)
    export SLURM_CONF=$dir/slurm.conf
    cat >"$SLURM_CONF" <<end
ClusterName=here
SlurmctldHost=$host(127.0.0.1)
SlurmctldPort=$(free_port)
SlurmUser=root
AuthType=auth/munge
AuthInfo=socket=$dir/munge.socket
CommunicationParameters=NoInAddrAny,NoCtldInAddrAny
ProctrackType=proctrack/linuxproc
TaskPlugin=task/none
MpiDefault=none
SelectType=select/cons_tres
SelectTypeParameters=CR_CPU
SchedulerParameters=sched_interval=1
ReturnToService=2
StateSaveLocation=$dir/state
SlurmctldPidFile=$dir/controller.pid
SlurmctldLogFile=$dir/controller.log
SlurmdSpoolDir=$dir/spool.%n
SlurmdPidFile=$dir/node.%n.pid
SlurmdLogFile=$dir/node.%n.log
JobCompType=jobcomp/filetxt
JobCompLoc=$dir/jobs.log
NodeName=one NodeHostname=$host NodeAddr=127.0.0.1 Port=$(free_port) CPUs=1
NodeName=two NodeHostname=$host NodeAddr=127.0.0.1 Port=$(free_port) CPUs=1
PartitionName=all Nodes=one,two Default=YES MaxTime=5 State=UP
end
    for ((i = 0; i < 50; i++)); do
        [ ! -S "$dir/munge.socket" ] || break
        sleep 0.1
    done
    slurmctld -D >"$dir/controller.out" 2>&1 &
    daemons+=($!)
    for node in one two; do
        slurmd -D -N $node >"$dir/node.$node.out" 2>&1 &
        daemons+=($!)
    done
    for ((i = SECONDS; SECONDS < i + 20; )); do
        [ "$(timeout 5 sinfo --noheader --Node --format '%N %T' 2>/dev/null)" != "$(printf '%s\n' 'one idle' 'two idle')" ] || return 0
        sleep 0.2
    done
    return 1
}

# stop_slurm: ends what was started.
stop_slurm() {
    local i
    for ((i = ${#daemons[@]} - 1; i >= 0; i--)); do
        kill "${daemons[i]}" 2>/dev/null && wait "${daemons[i]}" 2>/dev/null
    done
    daemons=()
}
