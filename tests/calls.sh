#!/bin/sh
# Tests the calls of the system that the built program makes, as strace shows them: which files are opened and created,
# in which order, and how often inputs are read and outputs written. No contract speaks of how often and when.
# usage: tests/calls.sh PROGRAM
set -u
program=$(realpath "${1:?which program?}")
. "$(dirname "$0")/common.sh"
cd "$room" || exit 1
if ! has strace || ! strace -qq -o trace "$program" cut -c 1 </dev/null; then
    needed "the calls of the system (strace cannot be used)"
    [ "$bad" = 0 ]
    exit
fi

# opened WANT WORDS..: the names that are opened, each with ! if it can't be and > if it is created, and | once
# something was written. The program opens each operand once, in the order of the words, all before anything is written;
# the output file of uniq is created after its input was opened, and by no other command. (What is opened to load the
# program, and to see that the standard streams are open, is left out.)
opened() {
    wanted=$1
    shift
    strace -qq -e trace=open,openat,creat,write -o trace "$program" "$@" <abcd >out 2>messages
    is "opened by $*" "$wanted" "$(awk -F'"' '
        /^write/ { if (!written) print "|"; written = 1; next }
        $2 !~ /^\/($|etc\/ld|lib|usr\/lib)/ { print ($3 ~ /O_CREAT/ ? ">" : "") $2 ($3 ~ /= -1/ ? "!" : "") }
    ' trace | tr '\n' ' ' | sed 's/ $//')"
}

printf 'abcd\n' >abcd
printf 'a\n' >f
printf 'b\n' >g
opened 'f g f |' cut -c 1 f g f
opened 'f none! g |' cut -c 1 f none - g
opened 'f g |' paste f - g
opened 'f none! g |' paste f none g
opened 'f none! g |' paste -s f none g
opened 'f |' uniq f
opened 'f >made |' uniq f made
opened '>made |' uniq - made
opened 'none! |' uniq none unmade
opened 'f >none/unmade! |' uniq f none/unmade
opened 'f g |' comm f g
opened 'none! f |' join none f
opened '|' tr a b
opened '|' cut -q f
opened '|' uniq - -
many=$(yes f | head -n 60 | tr '\n' ' ')
opened "$many|" cut -c 1 $many
opened "none! $many|" paste none $many

# A message is one write.
strace -qq -e trace=write -o trace "$program" cut -c 1 none <abcd >out 2>messages
is "writes of a message" 1 "$(grep -c '^write(2, ' trace)"

# counted WORDS..: standard input, of 100,000 bytes, is read once for each block of 8,192 bytes and once at its end, and
# standard output is written at most once for each block, and three times more
counted() {
    strace -qq -e trace=read,write -o trace "$program" "$@" <table >out 2>messages
    is "reads of $*" 14 "$(grep -c '^read(0, ' trace)"
    writes=$(grep -c '^write(1, ' trace) most=$(($(wc -c <out) / 8192 + 3))
    is "writes of $*, $writes, are at most $most" yes "$([ "$writes" -le "$most" ] && echo yes)"
}

seq -f '%07.0f abcd' 8000 | head -c 100000 >table
counted cut -b 1-
counted cut -b 1-3
counted cut -d 0 -f 2
counted tr a-z A-Z
counted tr -d a
counted tr -s 0
counted uniq
counted uniq -c
counted paste -
counted paste - -
counted paste -s -
counted comm - /dev/null
counted comm -3 - table
counted join - table
counted join -a 1 - /dev/null
echo "$((count - bad)) of $count checks of the calls of the system as wanted"
[ "$bad" = 0 ]
