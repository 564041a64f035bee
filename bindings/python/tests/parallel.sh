#!/bin/sh
# Tests the commands of docs/PARALLEL.md: the outputs of the parts of files of 64 MB, for each tool and each way to run
# them, against one run over the whole; and parts that fail. Several machines are network namespaces of this one, with
# an sshd in each. (bindings/python/tests/on_dask.py and bindings/python/tests/slurm.sh run those for a cluster.)
# usage: bindings/python/tests/parallel.sh PROGRAM
set -u
program=$(realpath "${1:?which program?}")
top=$(cd "$(dirname "$0")/../../.." && pwd)
page=$top/docs/PARALLEL.md
. "$top/tests/common.sh"
servers='' spaces='' made=''
if ! parallel --version 2>/dev/null | grep -q '^GNU parallel' || ! has bash; then
    left_out "parts of files (there is no GNU parallel, or no bash)"
    [ "$bad" = 0 ]
    exit
fi

# Stops the servers, and removes the namespaces and all files.
clean() {
    for pid in $servers; do kill "$pid" 2>/dev/null; done
    for space in $spaces; do ip netns del "$space"; done
    [ -z "$made" ] || rmdir /run/sshd
    rm -rf "$room"
}
trap clean EXIT
cd "$room" || exit 1
if [ "$(df -Pk . | awk 'NR == 2 { print $4 }')" -lt 3000000 ]; then
    left_out "parts of files (there are not 3 GB of space for temporary files)"
    [ "$bad" = 0 ]
    exit
fi
mkdir bin
ln -s "$program" bin/ptext
ln -s "$top/bindings/python/ptext/parts.py" bin/ptext-parts
ln -s "$(command -v parallel)" bin/parallel
export LC_ALL=C PYTHONDONTWRITEBYTECODE=1 PATH="$room/bin:$PATH" PARALLEL_HOME="$room" PARALLEL=--will-cite
: >messages

# failed NAME: reports a failure
failed() {
    bad=$((bad + 1))
    echo "FAILED: $1"
    head -3 messages
}

# run COMMAND: runs it by bash into the file out, after the two lines with which the page begins
run() {
    bash -c "set -o pipefail
export LC_ALL=C
$1" >out 2>messages </dev/null
    status=$?
    count=$((count + 1))
}

# block LINE: the block of the page that begins with this line
block() {
    LINE="    $1" awk '/^    / && !inside { inside = 1; shown = $0 == ENVIRON["LINE"] } !/^    / { inside = 0 }
        inside && shown { print substr($0, 5) }' "$page"
}

# blocks: the first lines of all blocks of the page
blocks() {
    awk '/^    / { if (!inside) print substr($0, 5); inside = 1; next } { inside = 0 }' "$page"
}

# both LINE WHOLE SIZES..: the block that begins with LINE, in parts of each size, against the command WHOLE; once more;
# and, if it writes to standard output, with a full disk
both() {
    command=$(block "$1") first=$1
    [ -n "$command" ] || failed "not in the page: $first"
    printf '%s\n' "$first" >>tested
    sh -c "$2" >want </dev/null || failed "$2"
    shift 2
    for size; do
        now=$(printf '%s\n' "$command" | sed "s/--block 20M/--block $size/")
        run "$now"
        [ "$status" = 0 ] && cmp -s out want || failed "$first, in parts of $size (status $status)"
    done
    bash -c "set -o pipefail
$now" >/dev/full 2>messages </dev/null && failed "$first, status 0, though the disk is full"
    run "$now"
    [ "$status" = 0 ] && cmp -s out want || failed "$first, a second time (status $status)"
}

# each LINE RESULT: for each command of the page's plans, the block that begins with LINE against one run; RESULT is the
# file that it writes
each() {
    command=$(block "$1")
    [ -n "$command" ] || failed "not in the page: $1"
    printf '%s\n' "$1" >>tested
    while IFS= read -r plan; do
        whole=$(printf '%s\n' "$plan" | sed 's/^ptext-parts plan 12 //; s/ > plan$//; s/^-i \([a-z]*\) \(.*\)/\2 <\1/')
        sh -c "ptext $whole" >want </dev/null || failed "$whole"
        rm -rf parts result
        run "$plan"
        run "$command"
        [ "$status" = 0 ] && cmp -s "$2" want || failed "$1, after $plan (status $status)"
    done <plans
}

# repeated FILE: the file, again and again, up to 64 MB
repeated() {
    for _ in 1 2 3 4 5 6 7 8; do cat "$1" "$1" "$1" "$1" "$1" "$1" "$1" "$1"; done
}

# The inputs: lines like those of a log; runs of equal lines, some longer than a part; two sorted files, and one of them
# shuffled; a table with a header.
awk 'BEGIN { for (n = 0; n < 15000; n++)
    printf "2026-11-22T10:%02d:%02dZ  host%d web[%d]:   GET /items/%d %d %d\n",
        n / 60 % 60, n % 60, n % 17, n * 31 % 9973, n, 200 + n % 5, n * 7919 % 65536 }' >piece
repeated piece >log
tr '\n' '\0' <log >zeros
awk 'BEGIN { for (n = 0; n < 40000; n++) for (k = n * 7919 % 50 + 1; k > 0; k--) print n % 3 ? k % 2 "\t" n " x" : n % 9 ? "." : " " }' >piece
(repeated piece | head -c 24000000; echo .; yes equal | head -n 4000000; repeated piece | head -c 24000000; echo .) >words
awk 'BEGIN { for (n = 0; n < 2100000; n++) printf "%08d aaaaaaaaaaaaaaaaaaaaa\n", n * 2 }' >left
awk 'BEGIN { for (n = 0; n < 2100000; n++) printf "%08d aaaaaaaaaaaaaaaaaaaaa\n", int(n / 2) * 3 }' >right
sort -k 2,2 -k 1.8,1.8 -k 1,1 left >shuffled
(echo id,name; sed 's/ /,/' shuffled | head -n 100000) >table
head -n 1000000 log >first
gzip -1 <log >log.gz
ln left second
for file in log zeros words left right shuffled; do
    [ "$(wc -c <"$file")" -ge 64000000 ] || failed "$file is too small"
done

{
    echo 'set -o pipefail'
    echo 'import ptext.dask'
    echo 'client = Client(scheduler_file="cluster.json")'
    echo 'mkdir -p parts && ptext-slurm.sh plan parts result'
    blocks | grep '^ptext-parts plan'
} >tested
block "ptext-parts plan 12 cut -d ' ' -f 1,3 log > plan" >plans
[ "$(wc -l <plans)" = 6 ] || failed "the page has not a plan for each tool"
both "sort -S 1G --parallel=4 -T . -k 1b,1 shuffled | ptext join - right" "ptext join left right" one
both "{ head -n 1 table && tail -n +2 table | sort -S 1G --parallel=4 -T . -t , -k 1,1; } > sorted && cat sorted" \
    "head -n 1 table; tail -n +2 table | sort" one
both "gzip -dc log.gz | parallel --pipe -k --halt now,fail=1 --block 20M 'ptext cut -d \" \" -f 1,3' | cat" \
    "ptext cut -d ' ' -f 1,3 log" 3M 20M
folder="mkdir -p parts && seq 12 | xargs -P 4 -I {} ptext-parts run plan {} parts && ptext-parts whole plan parts result"
printed="seq 12 | parallel -k --halt soon,fail=1 ptext-parts run plan {} | cat"
each "$folder" result
rm result
run "$folder"
[ "$status" = 0 ] && cmp -s result want || failed "a second run, in the folder of the first (status $status)"
each "$printed" out
once="ptext-parts -j 4 cut -d ' ' -f 1,3 log > result"
printf '%s\n' "$once" >>tested
block "$once" >at.once
[ "$(wc -l <at.once)" = 2 ] || failed "not in the page: $once"
while IFS= read -r words; do
    whole=ptext${words#ptext-parts -j 4}
    sh -c "${whole%> result}" >want </dev/null || failed "$whole"
    run "$words"
    [ "$status" = 0 ] && cmp -s result want || failed "$words (status $status)"
done <at.once
both "export PARALLEL_SHELL=/bin/bash && seq 12 |" "ptext join -a 1 -a 2 left right" one

# A part that fails makes the whole command fail, and there is no result.
fails() {
    for command in "$folder" "$printed"; do
        rm -rf parts result
        run "$command"
        [ "$status" != 0 ] && [ ! -e result ] || failed "status $status, though $1"
        grep -q "$2" messages || failed "no message: $2"
    done
}
(seq 300000 399999 && seq 100000 199999) >disorder
ptext-parts plan 12 comm disorder disorder >plan
fails "a file is out of order" "disorder: line .* is out of order"
ptext-parts plan 12 cut -c 1 disorder >plan
echo >>disorder
fails "a file has changed" "disorder: it has changed since it was cut"
rm disorder
fails "a file is gone" "disorder: No such file"
ptext-parts plan 12 cut -c 1- log >plan
rm -rf parts result
mkdir parts
run "ulimit -f 100; ptext-parts run plan 1 parts"
[ "$status" != 0 ] && [ -z "$(ls -A parts)" ] || failed "a part that has no room is there"
run "ptext-parts run plan 1 >/dev/full"
[ "$status" != 0 ] || failed "status 0, though a part was not written"
(seq 12 | xargs -P 4 -I {} ptext-parts run plan {} parts)
run "ulimit -f 9000; ptext-parts whole plan parts result"
[ "$status" != 0 ] && [ "$(ls -A | grep -c result)" = 0 ] || failed "a whole that has no room is there"
rm "$(ls parts/00007.*)"
run "ptext-parts whole plan parts result"
grep -q 'no output of part 7$' messages && [ "$status" != 0 ] && [ ! -e result ] || failed "a part is missing"
# A part that is killed leaves nothing under its name, and a second run does it.
mkfifo fifo
printf '#!/bin/sh\n: >begun\ncat fifo\n' >bin/slow
chmod +x bin/slow
PTEXT_PROGRAM=slow ptext-parts run plan 7 parts 2>messages &
until [ -e begun ]; do sleep 0.1; done
kill -9 $!
wait $! 2>/dev/null
: >fifo
run "ptext-parts whole plan parts result"
[ "$status" != 0 ] || failed "a part that was killed is there"
run "ptext-parts run plan 7 parts && ptext-parts whole plan parts result"
ptext cut -c 1- log >want
cmp -s result want || failed "a part was killed, and run again"

# As Hadoop streaming and Spark do: splits that end after lines go to mappers, or partitions to `pipe`. The results in
# the order of the splits are the result of the whole.
mkdir splits
head -n 200000 log >part
split -a 2 -d -l 30001 part splits/
for mapper in 'ptext cut -d " " -f 1,3' 'ptext tr a-z A-Z' 'ptext tr -d 0-9'; do
    run 'for split in splits/*; do '"$mapper"' <"$split" || exit; done'
    sh -c "$mapper" <part >want
    cmp -s out want || failed "as a mapper: $mapper"
done

# The lines of the mappers are distributed to three reducers by their keys, and each one gets its lines in the order of
# the keys. The lines of all reducers are those of the whole, in some order.
dealt() {
    awk -v to="$1" -v field="$2" '
        BEGIN { for (n = 1; n < 256; n++) code[sprintf("%c", n)] = n }
        { key = field ? $field : $0; sum = 0; for (n = 1; n <= length(key); n++) sum = (sum * 31 + code[substr(key, n, 1)]) % 9973
          print >(to "." sum % 3) }'
}
mkdir reducers
head -n 400000 words >part
dealt reducers/words 0 <part
run 'for file in reducers/words.*; do sort "$file" | sed "s/\$/\t/" | sed "s/\t\$//" | ptext uniq -c; done | sort'
sort part | ptext uniq -c | sort >want
cmp -s out want || failed "uniq -c as a reducer"
head -n 200000 left >left.part
head -n 270000 right >right.part
dealt reducers/left 1 <left.part
dealt reducers/right 1 <right.part
run 'for n in 0 1 2; do ptext join -a 1 reducers/left.$n reducers/right.$n; done | sort'
ptext join -a 1 left.part right.part | sort >want
cmp -s out want || failed "join of two inputs that were distributed alike"
run 'for n in 0 1 2; do ptext comm -12 reducers/left.$n reducers/right.$n; done | sort'
ptext comm -12 left.part right.part | sort >want
cmp -s out want || failed "comm of two inputs that were distributed alike"

# hosts: makes host1 and host2, an sshd in a network namespace each; fails if that cannot be done here
hosts() {
    sshd=$(PATH=$PATH:/usr/sbin:/sbin command -v sshd) && [ "$(id -u)" = 0 ] || return 1
    command -v ip >/dev/null && command -v ssh >/dev/null && command -v ssh-keygen >/dev/null || return 1
    [ -d /run/sshd ] || { mkdir /run/sshd && made=yes; } || return 1
    ssh-keygen -q -t ed25519 -N '' -f key && ssh-keygen -q -t ed25519 -N '' -f hostkey || return 1
    : >ssh.config
    for n in 1 2; do
        # (Another run of this test may have hosts of its own.)
        space=ptext-$$-$n net=198.18.$((2 * ($$ % 120) + n))
        ip netns add "$space" 2>>messages || return 1
        spaces="$spaces $space"
        ip link add "pt$$-$n" type veth peer name eth0 netns "$space" 2>>messages || return 1
        ip addr add "$net.1/30" dev "pt$$-$n" && ip link set "pt$$-$n" up || return 1
        ip -n "$space" addr add "$net.2/30" dev eth0 && ip -n "$space" link set eth0 up || return 1
        printf '%s\n' "ListenAddress $net.2" "HostKey $room/hostkey" "AuthorizedKeysFile $room/key.pub" "PidFile none" \
            "StrictModes no" "PermitRootLogin yes" "MaxStartups 100" "MaxSessions 100" \
            "SetEnv PATH=$room/bin:$(dirname "$(command -v python3)"):/usr/bin:/bin" >"sshd.$n"
        ip netns exec "$space" "$sshd" -D -f "$room/sshd.$n" 2>"sshd.$n.said" &
        servers="$servers $!"
        printf '%s\n' "Host host$n" "HostName $net.2" "User root" "IdentityFile $room/key" "IdentitiesOnly yes" \
            "UserKnownHostsFile /dev/null" "StrictHostKeyChecking no" "LogLevel ERROR" "BatchMode yes" \
            "ConnectTimeout 5" >>ssh.config
    done
    export PARALLEL_SSH="ssh -F $room/ssh.config"
    for n in 1 2; do
        tries=0
        until [ "$($PARALLEL_SSH "host$n" command -v ptext 2>>messages)" = "$room/bin/ptext" ]; do
            tries=$((tries + 1))
            [ "$tries" -lt 10 ] || return 1
            sleep 0.5
        done
    done
}

over="parallel -S host1,host2"
there="$over --pipepart -k --halt now,fail=1 --block 20M -a log 'ptext cut -d \" \" -f 1,3' | cat"
shared="seq 12 | parallel -S host1,host2 --workdir \"\$PWD\" -k --halt soon,fail=1 ptext-parts run plan {} | cat"
if hosts; then
    both "$there" "ptext cut -d ' ' -f 1,3 log" 20M
    each "$shared" out
    run "seq 40 | $over -k --halt now,fail=1 'echo \$SSH_CONNECTION {} | cut -d \" \" -f 3' | sort | uniq -c | wc -l"
    [ "$(cat out)" = 2 ] || failed "the parts did not go to both hosts: $(cat out)"
    # A host that is gone is a part that fails.
    kill "${servers##* }"
    servers=${servers% *}
    sleep 0.5
    run "seq 40 | $over -k --halt now,fail=1 'echo {}'"
    [ "$status" != 0 ] || failed "status 0, though a host is gone"
else
    left_out "several machines (they take root, ip, ssh and sshd)"
    cat sshd.*.said 2>/dev/null
    printf '%s\n' "$there" "$shared" >>tested
fi

blocks | sort >in.page
sort tested | cmp -s - in.page || failed "not tested: $(sort tested | comm -13 - in.page)"

echo "bindings/python/tests/parallel.sh: $count commands, $bad failed"
[ "$bad" = 0 ]
