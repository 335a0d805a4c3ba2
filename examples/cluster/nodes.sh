#!/usr/bin/env bash
# A cluster of Slurm on this machine alone, to try: a controller and two nodes of two processors, with a munge of its own. All of it stands in FOLDER.
#   bash nodes.sh start FOLDER    afterwards SLURM_CONF=FOLDER/slurm.conf leads the commands of Slurm there
#   bash nodes.sh stop FOLDER     ends what was started
# It needs the packages slurm-wlm and munge of Debian, and uses no service of theirs. All must be able to pass through FOLDER and what it lies in,
# as munge asks for its socket.
set -euo pipefail

stop() {
    echo "nodes.sh: $1" >&2
    exit 2
}

[ $# = 2 ] || stop "the words are start FOLDER or stop FOLDER"
mkdir -p -- "$2"
folder=$(cd -- "$2" && pwd -P)
case $folder in
    *[!A-Za-z0-9_./-]*) stop "the names in $folder must have letters, digits, dots, _ and - alone, since slurm.conf has no quotes" ;;
esac
export SLURM_CONF=$folder/slurm.conf
PATH=$PATH:/usr/sbin:/sbin

settings() {
    local user port=$((20000 + $$ % 20000))
    user=$(id -un)
    cat <<SETTINGS
ClusterName=trial
SlurmctldHost=$(uname -n)(127.0.0.1)
SlurmctldPort=$port
SlurmUser=$user
SlurmdUser=$user
AuthType=auth/munge
AuthInfo=socket=$folder/munge/socket
StateSaveLocation=$folder/state
SlurmdSpoolDir=$folder/%n
SlurmctldPidFile=$folder/slurmctld.pid
SlurmdPidFile=$folder/%n.pid
SlurmctldLogFile=$folder/slurmctld.log
SlurmdLogFile=$folder/%n.log
ProctrackType=proctrack/linuxproc
TaskPlugin=task/none
MpiDefault=none
SelectType=select/cons_tres
SelectTypeParameters=CR_CPU_Memory
SchedulerParameters=sched_interval=5
NodeName=node1 NodeAddr=127.0.0.1 NodeHostname=$(uname -n) Port=$((port + 1)) CPUs=2 RealMemory=2000
NodeName=node2 NodeAddr=127.0.0.1 NodeHostname=$(uname -n) Port=$((port + 2)) CPUs=2 RealMemory=2000
PartitionName=trial Nodes=node1,node2 Default=YES State=UP
SETTINGS
}

start() {
    local tries
    mkdir -p "$folder"/{munge,state,node1,node2}
    # All must be able to reach the socket, and nobody else to change what stands beside it.
    chmod 711 "$folder/munge"
    (umask 077 && head -c 1024 /dev/urandom >"$folder/munge/key")
    settings >"$folder/slurm.conf"
    munged --key-file="$folder/munge/key" --socket="$folder/munge/socket" --pid-file="$folder/munge/pid" \
        --log-file="$folder/munge/log" --seed-file="$folder/munge/seed" --origin=127.0.0.1
    slurmctld
    slurmd -N node1
    slurmd -N node2
    for ((tries = 0; tries < 60; tries++)); do
        [ "$(sinfo --noheader --format=%D%t 2>"$folder/sinfo.log")" != 2idle ] || return 0
        sleep 1
    done
    stop "the nodes are not up after a minute; the logs in $folder say why"
}

# Whether a process runs: one that nobody has waited for does not.
runs() {
    kill -0 "$1" 2>/dev/null && ! grep -qs '^State:.*Z' "/proc/$1/status"
}

# Ends the daemons, and waits until they have ended, so that the folder may be removed.
end() {
    local file process tries
    for file in "$folder"/node[12].pid "$folder/slurmctld.pid" "$folder/munge/pid"; do
        [ -s "$file" ] || continue
        process=$(cat "$file")
        kill "$process" 2>/dev/null || continue
        for ((tries = 0; tries < 100; tries++)); do
            runs "$process" || break
            sleep 0.2
        done
    done
}

case $1 in
    start) start ;;
    stop) end ;;
    *) stop "the words are start FOLDER or stop FOLDER" ;;
esac
