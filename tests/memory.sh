#!/bin/sh
# Refuses each request for memory of the built program in turn, for each tool. Either the status is 1, one message says
# so, and what was written is a beginning of the output; or all is as if nothing had been refused, since a vector that
# is refused more room than it needs asks again for less.
# usage: tests/memory.sh PROGRAM
set -eu
program=$(realpath "${1:?which program?}")
source=$(cd "$(dirname "$0")" && pwd)/refusing.c
. "$(dirname "$0")/common.sh"
if ! has "${CC:-cc}"; then
    needed "refused requests for memory (there is no C compiler, CC)"
    [ "$bad" = 0 ]
    exit
fi
cd "$room"
"${CC:-cc}" -O1 -shared -fPIC -o refusing.so "$source"

wrong() {
    bad=$((bad + 1))
    echo "FAILED: $1"
    cat messages
}

# run NUMBER WORDS..: runs the program on the file `input`, and refuses the request with this number. Whether there was
# such a request.
run() {
    number=$1
    shift
    rm -f mark
    status=0
    LD_PRELOAD="$room/refusing.so" REFUSED=$number REFUSED_MARK=mark "$program" "$@" <input >out 2>messages || status=$?
    test -e mark
}

# Whether the run was as if nothing had been refused.
is_whole() {
    [ "$status" = 0 ] && cmp -s out whole && [ ! -s messages ]
}

# Whether the run of this tool ended as it does for want of memory.
is_refused() {
    case $(cat messages) in
        "$1: out of memory") tool=$((tool + 1)) ;;
        "ptext: out of memory") own=$((own + 1)) ;;
        *) return 1 ;;
    esac
    [ "$status" = 1 ] && head -c "$(wc -c <out)" whole | cmp -s - out
}

# each LEAST OUTPUT WORDS..: with nothing refused, OUTPUT is what is written. The tool says at least LEAST times that a
# request of its own was refused. The program says it of its lists alone, of words and of inputs.
each() {
    least=$1
    printf "$2" >whole
    shift 2
    number=1
    tool=0
    own=0
    while run "$number" "$@"; do
        is_refused "$1" || is_whole || wrong "$*: request $number is refused, status $status"
        number=$((number + 1))
        count=$((count + 1))
    done
    is_whole || wrong "$*: nothing is refused, status $status"
    [ "$tool" -ge "$least" ] && [ "$own" -ge 2 ] && [ "$own" -le $((2 * $# + 4)) ] ||
        wrong "$*: $tool requests of the tool, $own of the program"
}

# The first file has a line that comes in pieces, as it is longer than a block.
long=$(head -c 20000 /dev/zero | tr '\0' x)
printf 'a\tb\na\tc\n%s\n' "$long" >input
printf 'a\t1\na\t2\nb\t3\n' >second
each 4 "a\na\n$long\n" cut -f 1 -
each 1 "a\tB\na\tc\n$long\n" tr b B
each 4 "a\tb\na\tc\n$long\n" uniq
each 6 "a\tb:a\t1\na\tc:a\t2\n$long:b\t3\n" paste -d : - second
each 2 "a\tb:a\tc:$long\n" paste -s -d : -
each 4 "a\t1\na\t2\nb\t3\n" comm -12 second second
each 6 "a b 1\na b 2\na c 1\na c 2\n" join - second

# The most bytes that a run has at a time. No contract bounds the capacity of a buffer.
# most BYTES FILE WORDS..: with this file as standard input, the run needs no more
most() {
    limit=$1 from=$2
    shift 2
    LD_PRELOAD="$room/refusing.so" COUNTED=peak "$program" "$@" <"$from" >out 2>messages || wrong "$*"
    count=$((count + 1))
    [ "$(cat peak)" -le "$limit" ] || wrong "$* <$from: $(cat peak) bytes at a time, wanted at most $limit"
}

# keeps LINES INPUTS FILE WORDS..: the run needs no more than it may for LINES lines of `size` bytes. A buffer has room
# for at most twice its line, and while the last one is moved, its old room is still there. Each input has a block of
# 8 KiB. The rest is for words, lists and empty slots.
keeps() {
    limit=$((($1 * 2 + ($1 > 0)) * size + $2 * 9000 + 3000))
    shift 2
    most "$limit" "$@"
}

# lines KEYS: a line of `size` bytes for each of these keys
lines() {
    text=$(head -c $((size - 2)) /dev/zero | tr '\0' x)
    for key; do
        echo "$key $text"
    done
}

# So many lines are the bound of the bytes in the store that the definitions name. For the longest ones a buffer that
# doubles has the most to spare, since 530,000 is a little more than 64 times 8 KiB.
for size in 12 100 2000 8000 20000 530000; do
    lines a b c d e f >once
    lines a a b b c c d d e e f f >twice
    keeps 0 1 twice cut -b 2-
    keeps 0 1 twice tr x y
    keeps 0 1 twice tr -ds ' ' x
    keeps 0 1 twice paste -s -
    keeps 0 2 twice paste -s - once
    keeps 1 1 twice cut -d ' ' -f 2
    keeps 2 1 twice uniq -c
    keeps 2 1 twice paste - -
    keeps 2 2 twice paste - once
    keeps 4 2 once comm - twice
    keeps 4 2 once join -v 1 - twice
    keeps 6 2 once join - twice
done
# As many short lines as one likes.
size=12
seq -f '%07.0f abcd' 20000 >short
keeps 1 1 short cut -d 0 -f 2
keeps 2 1 short uniq -c -f 1
keeps 2 1 short paste - -
keeps 2 2 short paste - short
keeps 4 2 short comm - short
keeps 6 2 short join -a 1 - short
# The lines of one key: each has a buffer of 128 bytes, and its entry in the list of slots.
yes 'k some words' | head -n 1000 >keys
most 300000 keys join - keys
keeps 2 1 keys uniq -c

[ "$bad" = 0 ] || exit 1
echo "$count runs: each request for memory was refused in turn, and answered as wanted; no run needs too much of it"
