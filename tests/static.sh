#!/bin/sh
# Tests the program without shared libraries: that it names none; as nobody, in a folder that it sees as the root and
# that contains nothing else than its inputs; the moves of bytes that are its own; and then all of tests/program.sh and
# tests/calls.sh.
# usage: tests/static.sh PROGRAM
set -u
program=$(realpath "${1:?which program?}")
cd "$(dirname "$0")" || exit 1
. ./common.sh
# (Root's PATH lacks this folder here and there.)
PATH=$PATH:/usr/sbin

# answers WANTED WORDS..: the output, the messages and the status of the program, on the input of these tests
answers() {
    wanted=$1
    shift
    count=$((count + 1))
    found=$(printf 'a b\na b\nc d\n' | chroot --userspec=65534:65534 --groups= "$room" /ptext "$@" 2>&1; echo "status $?")
    [ "$wanted" = "$found" ] && return
    bad=$((bad + 1))
    printf 'FAILED: %s\nwanted: %s\nfound: %s\n' "$*" "$wanted" "$found"
}

cp "$program" "$room/ptext"
printf 'a 1\nc 2\n' >"$room/table"
# Nobody may enter the folder, run the program and read its input.
chmod 755 "$room" "$room/ptext"
chmod 644 "$room/table"
if command -v readelf >/dev/null; then
    # (Only a program that needs shared libraries names the one that loads them.)
    count=1
    if readelf -lW "$room/ptext" | grep -q INTERP; then
        bad=1
        echo "FAILED: the program needs shared libraries"
    fi
else
    left_out "whether the program names shared libraries (there is no readelf)"
fi
newline='
'
if [ "$(id -u)" != 0 ]; then
    left_out "the program in an empty root (only the superuser may run chroot)"
elif ! chroot --userspec=65534:65534 --groups= / /bin/true 2>/dev/null; then
    left_out "the program in an empty root (there is no chroot that runs a program as nobody)"
else
    answers "b${newline}b${newline}d${newline}status 0" cut -d ' ' -f 2
    answers "a b${newline}status 0" uniq -d
    answers "A B${newline}A B${newline}C D${newline}status 0" tr a-z A-Z
    answers "a b:a b:c d${newline}status 0" paste -s -d : -
    answers "a b 1${newline}a b 1${newline}c d 2${newline}status 0" join - table
    answers "a 1${newline}c 2${newline}status 0" comm -13 - table
    answers "cut: none: cannot be opened${newline}status 1" cut -c 1 none
    answers "uniq: /new: cannot be opened${newline}status 1" uniq - /new
    answers "cut: unknown option in -q${newline}status 2" cut -q
    echo "$((count - bad)) of $count checks without shared libraries as wanted"
fi
if has gcc; then
    gcc -std=c11 -O3 -fno-builtin -fno-tree-loop-distribute-patterns -o "$room/copying" copying.c && "$room/copying" ||
        bad=$((bad + 1))
else
    left_out "moves of bytes (there is no gcc)"
fi
sh program.sh "$program" && sh calls.sh "$program" && [ "$bad" = 0 ]
