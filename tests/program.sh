#!/bin/sh
# Tests the built program from outside: what no proof speaks of, as real files, pipes and devices.
# usage: tests/program.sh PROGRAM [EMULATOR EMULATED]     PROGRAM runs the second by the first, which is qemu: a static
#                                                        program for another processor
set -u
program=$(realpath "${1:?which program?}")
emulator=${2:-} emulated=${3:-}
tests=$(cd "$(dirname "$0")" && pwd)
. "$tests/common.sh"
cd "$room" || exit 1

# same NAME STATUS: the files out, messages and status against want.out, want.messages and STATUS
same() {
    count=$((count + 1))
    if cmp -s out want.out && cmp -s messages want.messages && [ "$status" = "$2" ]; then
        return
    fi
    bad=$((bad + 1))
    echo "FAILED: $1 (status $status, wanted $2)"
    diff out want.out | head -5
    diff messages want.messages | head -5
}

# limit_memory KIB: limits the address space of the program that is run then, of which the emulator needs 40 MiB; there,
# the stack is not counted
limit_memory() {
    if [ "$emulator" ]; then
        export QEMU_RESERVED_VA=$(($1 + 8192))k QEMU_STACK_SIZE=8388608
    else
        ulimit -v "$1"
    fi
}

# want OUT MESSAGES: what is wanted, as printf writes it
want() {
    printf "$1" >want.out
    printf "$2" >want.messages
}

# run INPUT WORDS..: runs the program on the file INPUT
run() {
    input=$1
    shift
    "$program" "$@" <"$input" >out 2>messages
    status=$?
}

printf 'abcd\n' >abcd
want 'acd\n' ''
run abcd cut -c 3-,1
same "bytes in the order of the line" 0

: >empty
want '' ''
run empty cut -c 1
same "an empty input" 0

# Words that are refused, and what is said of them.
while IFS= read -r row; do
    case $row in '#'*) continue ;; esac
    set -f
    IFS='|'
    set -- $row
    unset IFS
    set +f
    : >want.out
    printf '%b\n' "$1" >want.messages
    wanted=$2
    shift 2
    left=$#
    while [ "$left" -gt 0 ]; do
        word=$(printf '%b.' "$1")
        shift
        set -- "$@" "${word%.}"
        left=$((left - 1))
    done
    run abcd "$@"
    same "refused words: $row" "$wanted"
done <"$tests/refused.txt"

want '' 'ptext: a word is not UTF-8\n'
run abcd "$(printf 'cut\377')"
same "a word that is not UTF-8" 2

mkdir folder
want '' 'cut: standard input: read failed\n'
run folder cut -c 1
same "a folder as standard input" 1

want '' ''
"$program" cut -c 1 <abcd >/dev/full 2>messages
status=$?
: >out
want '' 'cut: output: write failed\n'
same "a full device" 1

if [ -e /proc/self/fd ]; then
    "$program" cut -c 1 <abcd 2>messages >&-
    status=$?
    : >out
    want '' 'cut: output: write failed\n'
    same "a closed output" 1
else
    left_out "a closed output (there is no /proc/self/fd)"
fi

# A standard stream that is closed is not taken for a file that is opened after it.
printf 'ef\n' >named
"$program" cut -c 1 named - >out 2>messages <&-
status=$?
want 'e\n' 'cut: standard input: read failed\n'
same "a closed input behind a file" 1
"$program" cut -c 1 named >out 2>messages <&-
status=$?
want 'e\n' ''
same "a closed input that is not read" 0
: >messages
"$program" uniq named out 2>&- <&-
status=$?
want 'ef\n' ''
same "closed streams beside an output file" 0
"$program" uniq - out 2>&- <&-
status=$?
want '' ''
same "closed messages do not go to an output file" 1
"$program" uniq - out <&- >&- 2>&-
status=$?
want '' ''
same "nor do they where all three streams are closed" 1
"$program" uniq named out 2>messages >&-
status=$?
want 'ef\n' ''
same "a closed output beside an output file" 0
"$program" cut -c 1 named 2>messages >&-
status=$?
: >out
want '' 'cut: output: write failed\n'
same "a closed output is not a file that is read" 1
cp named out
want 'ef\n' 'cut: output: write failed\n'
same "a file that was read while output was closed" 1

# So it is where the root folder may not be read: a folder, or the null device, takes the place of the closed stream. If
# neither can be opened, nothing is run.
in_jail() {
    at=$1
    shift
    python3 -c '
import os, sys
os.chroot("jail")
os.chdir(sys.argv[1])
os.setgroups([])
os.setgid(65534)
os.setuid(65534)
os.execv("/ptext", ["ptext", *sys.argv[2:]])' "$at" ${emulator:+/emulated} "$@"
    status=$?
}

mkdir -p jail/dev jail/open
cp "${emulator:-$program}" jail/ptext
[ ! "$emulator" ] || cp "$emulated" jail/emulated
ldd "$program" 2>/dev/null | grep -o '/[^ ]*' | while read -r library; do
    mkdir -p "jail$(dirname "$library")"
    cp "$library" "jail$library"
done
cp abcd jail/f
chmod 711 jail
chmod 755 jail/ptext
chmod 777 jail/open
if [ "$(id -u)" != 0 ] || ! (in_jail / tr a b <empty >out 2>messages; exit "$status"); then
    left_out "closed streams where the root folder may not be read (only the superuser may enter another root)"
else
    for place in nothing null folder; do
        at=/
        [ $place != null ] || { : >jail/dev/null && chmod 666 jail/dev/null; }
        [ $place != folder ] || { rm jail/dev/null && at=/open; }
        for words in 'cut -c 1 - /f' 'paste - /f' 'paste -s - /f' uniq 'comm - /f' 'join - /f' 'tr a b'; do
            tool=${words%% *}
            in=": standard input: read failed" out=": output: write failed"
            [ $place != nothing ] || {
                tool=ptext in=": a standard stream is closed, and nothing can take its place"
                out=$in
            }
            in_jail $at $words <&- >out 2>messages
            want '' "$tool$in\n"
            same "a closed input of $words, and $place" 1
            in_jail $at $words <abcd 2>messages >&-
            : >out
            want '' "$tool$out\n"
            same "a closed output of $words, and $place" 1
        done
        : >messages
        in_jail $at uniq - /open/made <folder >out 2>&-
        [ ! -s jail/open/made ] || echo made >>out
        want '' ''
        same "closed messages, and $place" 1
    done
    in_jail / cut -c 1 - /f <abcd >out 2>messages
    want 'a\na\n' ''
    same "no closed stream, and nothing that can be opened" 0
fi

# A closed pipe ends the run with the message of a failed write.
head -c 4000000 /dev/zero | tr '\0' 'a' >many
(
    "$program" cut -b 1- <many 2>messages
    echo $? >ended
) | head -c 1 >out
status=$(cat ended)
want 'a' 'cut: output: write failed\n'
same "a closed pipe" 1

# Two outputs that are both gone: nothing is said, and the status stays.
"$program" cut -c 1 <abcd >/dev/full 2>/dev/full
status=$?
: >out
: >messages
want '' ''
same "both sinks full" 1

# A long line takes no memory: with little of it the run still ends well.
head -c 64000000 /dev/zero | tr '\0' 'b' >long
(
    limit_memory 65536
    "$program" cut -b 2-4 <long >out 2>messages
    echo $? >ended
)
status=$(cat ended)
want 'bbb\n' ''
same "a line of 64 MB in 64 MiB of memory" 0

printf 'ab\n' >f
printf 'cd\n' >h
want 'a\nc\n' 'cut: g: cannot be opened\n'
run empty cut -c 1 f g h
same "a file that cannot be opened" 1

printf 'xy\n' >in
want 'a\nx\nc\n' ''
run in cut -c 1 f - h
same "files and standard input in their order" 0

want 'x\na\na\n' ''
run in cut -c 1 - f - f
same "a file that is named twice is read twice, and standard input once" 0

want 'a\n' 'cut: folder: read failed\n'
run empty cut -c 1 f folder h
same "a folder opens, and its first read fails" 1

want 'c\n' 'cut: f/none: cannot be opened\ncut: none: cannot be opened\n'
run empty cut -c 1 f/none h none
same "files that cannot be there and are not there" 1

: >secret
chmod 000 secret
# (Root may read any file, so there the program is run as nobody.)
as=
[ ! -r secret ] || as='setpriv --reuid=65534 --regid=65534 --clear-groups'
cp "$program" mine
chmod 755 . mine
if $as ./mine cut -c 1 h <empty >out 2>messages; then
    $as ./mine cut -c 1 secret h <empty >out 2>messages
    status=$?
    want 'c\n' 'cut: secret: cannot be opened\n'
    same "a file that may not be read" 1
else
    left_out "a file that may not be read (setpriv cannot run a program as nobody)"
fi

# As many operands as there may be, and one more.
set --
while [ $# -lt 512 ]; do
    set -- "$@" f
done
want '' ''
yes a | head -n 512 >want.out
run empty cut -c 1 "$@"
same "512 operands" 0

want '' 'cut: wrong number of operands\n'
run empty cut -c 1 "$@" f
same "513 operands" 2

want '' 'paste: wrong number of operands\n'
run empty paste "$@" -
same "513 operands of paste" 2

# paste, in rows and in series, over files and standard input.
printf '1\n2\n3\n' >numbers
want 'ab\t1\tcd\t2\n\t3\t\t\n' ''
run numbers paste f - h -
same "columns of files and of standard input" 0

want 'ab\n1,2,3\n\n' ''
run numbers paste -sd, f - -
same "lines in series" 0

want '' 'paste: none: cannot be opened\npaste: gone: cannot be opened\n'
run numbers paste none - gone
same "no rows where a file cannot be opened" 1

want 'ab\ncd\n' 'paste: none: cannot be opened\n'
run numbers paste -s f none h
same "series without a file that cannot be opened" 1

# uniq, and its output file: created or emptied once the input was opened, and not else.
printf 'a\na\nb\na' >runs
want '2 a\n1 b\n1 a\n' ''
run runs uniq -c
same "counts of runs" 0

want '' ''
run runs uniq -c - counts
same "nothing on standard output where uniq writes to a file" 0
want '2 a\n1 b\n1 a\n' ''
cp counts out
same "uniq writes to its output file" 0

want '' 'uniq: none: cannot be opened\n'
run empty uniq none unmade
[ -e unmade ] && echo made >>out
same "no output file where the input cannot be opened" 1

want '' 'uniq: none/unmade: cannot be opened\n'
run runs uniq - none/unmade
same "an output file that cannot be created" 1

want '' 'uniq: options -c and -d do not go together\n'
run runs uniq -cd - unmade
[ -e unmade ] && echo made >>out
same "no output file where the words are refused" 2

want '2 a\n1 b\n1 a\n' ''
run runs uniq -c - -
same "a dash as the output is standard output" 0

cp runs self
run runs uniq self self
cat self >>out
want '' ''
same "a file that is input and output is emptied first" 0

want '' 'uniq: output: write failed\n'
"$program" uniq runs /dev/full 2>messages
status=$?
: >out
same "an output file on a full device" 1

# comm, over two files, a file and standard input, and files out of order.
printf 'a\na\nb\n' >first
printf 'a\nc\n' >second
want '\t\ta\na\nb\n\tc\n' ''
run empty comm first second
same "lines of two files" 0
run first comm - second
same "lines of standard input and a file" 0

printf 'b\na\nc\n' >falls
printf 'a\nb\nb\nd\n' >rises
want '\ta\n\t\tb\n\tb\n' 'comm: falls: line 2 is out of order\n'
run empty comm falls rises
same "a file out of order" 1

want '' 'comm: f/none: cannot be opened\ncomm: none: cannot be opened\n'
run empty comm f/none none
same "two files that cannot be opened" 1

# The system's comm gives the same of sorted numbers.
seq 1 3 3000 | LC_ALL=C sort >threes
seq 1 2 3000 | LC_ALL=C sort >twos
for letters in -1 -2 -3 -12 -13 -23; do
    LC_ALL=C comm $letters threes twos >want.out
    : >want.messages
    run empty comm $letters threes twos
    same "comm $letters as the system's" 0
done

# join, over two files, a file and standard input, and files out of order.
printf 'a 1\na 2\nc 9\n' >first
printf 'a x\na y\nb z\n' >second
want 'a 1 x\na 1 y\na 2 x\na 2 y\n' ''
run empty join first second
same "pairs of two files" 0
run first join - second
same "pairs of standard input and a file" 0

printf 'b 1\na 2\n' >falls
want 'b 1 y\n' 'join: falls: line 2 is out of order\n'
printf 'a x\nb y\n' >rises
run empty join falls rises
same "a file of join out of order" 1

want '' 'join: none: cannot be opened\n'
run empty join falls none
same "a file of join that cannot be opened" 1

# The system's join gives the same of sorted numbers.
sed 's/.*/& a&,:/' threes >left
sed 's/.*/& b&/' twos >right
for options in '-a 1' '-v 2' '-a 1 -a 2 -e - -o 0,1.2,2.2,2.3' '-t , -v 1' '-v 1 -v 2' '-1 1 -2 1 -o 2.2,1.1'; do
    LC_ALL=C join $options left right >want.out
    : >want.messages
    run empty join $options left right
    same "join $options as the system's" 0
done

# A folder opens, and its first read fails.
want '' 'uniq: folder: read failed\n'
run empty uniq folder
same "a folder as the input of uniq" 1
want '' 'paste: folder: read failed\n'
run empty paste f folder
same "a folder as a column" 1
want 'ab\n' 'paste: folder: read failed\n'
run empty paste -s f folder h
same "a folder in series" 1
want '' 'comm: folder: read failed\n'
run empty comm first folder
same "a folder as a file of comm" 1
want '' 'join: folder: read failed\n'
run empty join first folder
same "a folder as a file of join" 1

# A group that does not fit: what was decided is written.
printf '0 1\na 1\n' >pairs
{
    printf '0 x\n'
    seq -f 'a %099.0f' 300000
} >group
(
    limit_memory 40960
    "$program" join pairs group >out 2>messages
    echo $? >ended
)
status=$(cat ended)
want '0 1 x\n' 'join: out of memory\n'
same "a group of join that does not fit" 1

# Words that do not fit: the program's own list of them is refused. (An emulator needs memory, too.)
(
    words=60000 least=12288
    [ ! "$emulator" ] || words=180000 least=40960
    limit_memory $least
    "$program" cut -c 1 $(yes 1 | head -n $words) <empty >out 2>messages
    echo $? >ended
)
status=$(cat ended)
want '' 'ptext: out of memory\n'
same "a list of words that does not fit" 1

# One line of 64 MB in each file.
want '' ''
run empty comm -3 long long
same "comm over one line of 64 MB" 0

# One line of 64 MB, which uniq keeps twice at most, in 192 MB of address space.
(
    limit_memory 196608
    "$program" uniq -d <long >out 2>messages
    echo $? >ended
)
status=$(cat ended)
want '' ''
same "uniq over one line of 64 MB" 0

# This line as a column, and in series, where nothing is kept.
{
    cat long
    echo
} >want.out
: >want.messages
(
    limit_memory 196608
    "$program" paste long >out 2>messages
    echo $? >ended
)
status=$(cat ended)
same "a column of one line of 64 MB" 0
(
    limit_memory 65536
    "$program" paste -s - <long >out 2>messages
    echo $? >ended
)
status=$(cat ended)
same "one line of 64 MB in series" 0

# The stack: each tool needs less than 256 KiB of it, also for long lines, many fields and many equal lines.
{
    seq -f 'a,b%.0f,c d' 5000
    yes equal | head -n 200
    head -c 100000 long
    echo
} | LC_ALL=C sort >table
while IFS= read -r words; do
    "$program" $words <table >want.out 2>want.messages
    wanted=$?
    (
        ulimit -s 256
        "$program" $words <table >out 2>messages
        echo $? >ended
    )
    status=$(cat ended)
    same "256 KiB of stack: $words" "$wanted"
done <<'ROWS'
cut -b 1-3,5-
cut -c 90000-
cut -d , -f 2- -
cut -s -d , -f 1,3 table -
tr a-z A-Z
tr -d 0-9
tr -cs [:alpha:] [\n*]
tr -s a-c
uniq
uniq -c -f 1
uniq -d -s 3 table
paste - -
paste table - table
paste -s -d ,; -
comm - table
comm -12 table -
join -t , - table
join -a 1 -a 2 -e x -o 0,1.1,2.2 - table
ROWS

# One line of 150,000,000 bytes through each tool that keeps lines.
rm -f long
head -c 150000000 /dev/zero | tr '\0' x >line
{
    cat line
    echo
} >want.out
: >want.messages
for words in 'cut -f 1' 'uniq' 'paste -' 'comm - empty' 'join -t , -a 1 - empty'; do
    run line $words
    same "one line of 150 MB: $words" 0
done

# A name of 4,002 bytes, and 100,000 lines of one key in the second file.
rm -f line want.out
printf 'ab\n' >f
want 'a\n' ''
run empty cut -c 1 "$(printf '%04000d' 0 | sed 's/00/.\//g')/f"
same "a name of 4,002 bytes" 0
seq -f 'k %.0f' 100000 >keys
printf 'k x\n' >key
sed 's/k/k x/' keys >want.out
run key join - keys
same "100,000 lines of one key" 0

echo "$((count - bad)) of $count runs of the program as wanted"
[ "$bad" = 0 ]
