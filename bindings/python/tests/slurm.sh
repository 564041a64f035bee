#!/bin/sh
# Runs the commands of docs/PARALLEL.md for Slurm on a cluster of this machine, over loopback: slurmctld, three slurmd
# and munged, as root. It compares the outputs of the six tools with one run over the whole; then a file is out of order, a
# disk is full, and a node is killed in the middle of a command. It takes some four minutes, in two of which Slurm waits
# before it queues parts again.
# usage: bindings/python/tests/slurm.sh PROGRAM [MEGABYTES]
set -u
program=$(realpath "${1:?which program?}")
top=$(cd "$(dirname "$0")/../../.." && pwd)
. "$top/tests/common.sh"
PATH=$PATH:/usr/sbin:/sbin
if [ "$(id -u)" != 0 ] || ! has slurmctld slurmd munged sbatch; then
    left_out "Slurm (it takes root, slurmctld, slurmd, slurm-client and munge)"
    [ "$bad" = 0 ]
    exit
fi
started=
clean() {
    for pid in $started; do kill "$pid" 2>/dev/null; done
    [ ! -s "$room/munge/pid" ] || kill "$(cat "$room/munge/pid")" 2>/dev/null
    wait
    mountpoint -q "$room/full" 2>/dev/null && umount "$room/full"
    rm -rf "$room"
}
trap clean EXIT
chmod 755 "$room"
cd "$room" || exit 1
mkdir bin munge spool spool/w1 spool/w2 spool/w3 state logs
chmod 700 munge
ln -s "$program" bin/ptext
ln -s "$top/bindings/python/ptext/parts.py" bin/ptext-parts
ln -s "$top/tools/ptext-slurm.sh" bin/ptext-slurm.sh
export LC_ALL=C PATH="$room/bin:$PATH" SLURM_CONF="$room/slurm.conf" PYTHONDONTWRITEBYTECODE=1
host=$(hostname -s)
# (Another run of this test may have a cluster of its own.)
port=$((20000 + $$ % 1000 * 10))
cat >slurm.conf <<END
ClusterName=test
SlurmctldHost=$host(127.0.0.1)
SlurmUser=root
SlurmdUser=root
AuthType=auth/munge
AuthInfo=socket=$room/munge/socket
CryptoType=crypto/munge
SlurmctldPort=$port
SlurmdPort=$((port + 1))
SlurmctldPidFile=$room/ctld.pid
SlurmdPidFile=$room/slurmd.%n.pid
SlurmdSpoolDir=$room/spool/%n
StateSaveLocation=$room/state
SlurmctldLogFile=$room/logs/ctld.log
SlurmdLogFile=$room/logs/slurmd.%n.log
ProctrackType=proctrack/linuxproc
TaskPlugin=task/none
SelectType=select/cons_tres
SelectTypeParameters=CR_CPU
SwitchType=switch/none
MpiDefault=none
ReturnToService=2
SlurmdTimeout=20
SlurmctldTimeout=30
MinJobAge=300
MessageTimeout=20
KillWait=5
SchedulerParameters=sched_interval=2
JobAcctGatherType=jobacct_gather/none
SlurmdParameters=config_overrides
NodeName=w[1-3] NodeHostname=$host NodeAddr=127.0.0.1 Port=[$((port + 2))-$((port + 4))] CPUs=2 RealMemory=4000
PartitionName=all Nodes=w[1-3] Default=YES MaxTime=INFINITE State=UP
END
head -c 1024 /dev/urandom >munge/key
chmod 400 munge/key
munged --force --socket="$room/munge/socket" --key-file="$room/munge/key" --log-file="$room/munge/log" \
    --pid-file="$room/munge/pid" --seed-file="$room/munge/seed"
slurmctld -D -i >logs/ctld.said 2>&1 &
started=$!
for node in w1 w2 w3; do
    setsid slurmd -D -N "$node" >"logs/$node.said" 2>&1 &
    started="$started $!"
    eval "$node=$!"
done
tries=0
until [ "$(sinfo --noheader -o '%T %D' 2>/dev/null)" = 'idle 3' ]; do
    tries=$((tries + 1))
    if [ "$tries" = 60 ]; then
        left_out "Slurm (its daemons do not start here)"
        sinfo
        tail -n 3 logs/*
        exit "$bad"
    fi
    sleep 1
done

# failed NAME: reports a failure
failed() {
    bad=$((bad + 1))
    echo "FAILED: $1"
    tail -n 3 messages
}

# block LINE: the block of the page that begins with this line
block() {
    LINE="    $1" awk '/^    / && !inside { inside = 1; shown = $0 == ENVIRON["LINE"] } !/^    / { inside = 0 }
        inside && shown { print substr($0, 5) }' "$top/docs/PARALLEL.md"
}

# The inputs are those of bindings/python/tests/on_dask.py.
python3 "$top/bindings/python/tests/on_dask.py" --inputs "${2:-64}" || failed "the inputs"
block "ptext-parts plan 12 cut -d ' ' -f 1,3 log > plan" >plans
command=$(block 'mkdir -p parts && ptext-slurm.sh plan parts result')
[ "$(wc -l <plans)" = 6 ] && [ "$command" ] || failed "the page lacks a plan, or the command for Slurm"
while IFS= read -r plan; do
    whole=$(printf '%s\n' "$plan" | sed 's/^ptext-parts plan 12 //; s/ > plan$//; s/^-i \([a-z]*\) \(.*\)/\2 <\1/')
    began=$(date +%s)
    sh -c "ptext $whole" >wanted </dev/null 2>messages || failed "$whole"
    rm -rf parts result
    middle=$(date +%s)
    sh -c "$plan" 2>messages && bash -c "$command" 2>messages </dev/null && cmp -s wanted result || failed "$plan"
    count=$((count + 1))
    echo "equal: ptext $whole: one process $((middle - began)) s, in 12 parts $(($(date +%s) - middle)) s"
done <plans

# A part that is refused ends the job, with the message of the tool. So does a disk that is full. There is no result.
printf '1\n3\n2\n' >disorder
rm -f result
mkdir refused full
ptext-parts plan 3 comm disorder disorder >refused/plan
ptext-slurm.sh refused/plan refused result 2>messages && failed "status 0, though a file is out of order"
grep -q 'disorder: line .* is out of order' messages && [ ! -e result ] || failed "a file that is out of order"
count=$((count + 1))
if mount -t tmpfs -o size=1m tmpfs full 2>/dev/null; then
    ptext-parts plan 3 cut -c 1- log >full/plan
    ptext-slurm.sh full/plan full result 2>messages && failed "status 0, though the disk is full"
    [ ! -e result ] || failed "a full disk"
    count=$((count + 1))
    umount full
else
    left_out "a full disk below Slurm (no file system can be mounted)"
fi

# A node dies in the middle of a part: its daemon, and all that it started. Another node does the part. (The program is
# slow then.)
mkdir killed
ptext-parts plan 12 cut -d ' ' -f 1,3 log >killed/plan
ptext cut -d ' ' -f 1,3 log >wanted
rm bin/ptext
printf '#!/bin/sh\n"%s" "$@" && sleep 8\n' "$program" >bin/ptext
chmod +x bin/ptext
ptext-slurm.sh killed/plan killed result 2>messages &
waiting=$!
started="$waiting $started"

# below PID: this process and all that it started
below() {
    echo "$1"
    for child_pid in $(pgrep -P "$1"); do below "$child_pid"; done
}

# on_w2: the processes of the parts that run on this node
on_w2() {
    for job in $(squeue --noheader --states=R --nodelist=w2 -o %A); do
        for pid in $(pgrep -f "^slurmstepd: \[$job[.]"); do
            tr '\0' '\n' <"/proc/$pid/environ" | grep -qxF "SLURM_CONF=$SLURM_CONF" && below "$pid"
        done
    done
}

tries=0
until on_w2 | grep -q . || [ "$tries" = 60 ]; do
    tries=$((tries + 1))
    sleep 0.5
done
sleep 1
doomed=$(on_w2)
[ "$doomed" ] || failed "no part was on the node that dies"
kill -9 $w2 $doomed
wait "$waiting" || failed "a node died, and the job failed"
cmp -s wanted result || failed "a node died, and the output is not that of one run"
grep -q -i requeue logs/ctld.log || failed "no part was queued again"
count=$((count + 1))
echo "bindings/python/tests/slurm.sh: $count commands, $bad failed"
[ "$bad" = 0 ]
