#!/bin/sh
# Tests the program as one file in C, build/onefile/ptext.c: compiled by gcc, with each address checked, and by tcc, all
# tests of a program and random commands; for ARM64, and a big-endian machine; and its archive.
# usage: bindings/onefile/tests/onefile.sh PROGRAM
set -u
program=$(realpath "${1:?which program?}")
cd "$(dirname "$0")/../../.." || exit 1
. tests/common.sh
source=$PWD/build/onefile/ptext.c
version=$(cat VERSION)

# quiet NAME WORDS..: that a command succeeds. What it says is shown if it does not
quiet() {
    name=$1 status=0
    shift
    "$@" >"$room/said" 2>&1 || status=$?
    [ "$status" = 0 ] || cat "$room/said"
    is "$name" 0 "$status"
}

# (No file of the source is beside that of the archive.)
python3 tools/dist.py onefile "$room/dist" >"$room/said" || cat "$room/said"
mkdir "$room/one" && tar -xJf "$room/dist/ptext-$version-onefile.tar.xz" -C "$room/one" --strip-components=1
is "the archive" "COMMIT LICENSES README SHA256SUMS man ptext.c " "$(ls "$room/one" | LC_ALL=C sort | tr '\n' ' ')"
is "its program" "" "$(cmp "$source" "$room/one/ptext.c" 2>&1)"
is "its licenses" "" "$(for it in 'MIT License' 'Apache License' memchr arrayvec; do
    grep -q "$it" "$room/one/LICENSES" || echo "no $it"
done)"
is "its manual" "ptext-comm.1 ptext-cut.1 ptext-join.1 ptext-paste.1 ptext-tr.1 ptext-uniq.1 ptext.1 " \
    "$(ls "$room/one/man" | LC_ALL=C sort | tr '\n' ' ')"
command=$(sed -n 's/^    \(cc .*\)/\1/p' "$room/one/README")
is "how to compile it" "cc -O2 -w -o ptext ptext.c" "$command"

# (Beside the other tests, since it takes long.)
compiling=
for processor in aarch64 s390x; do
    if has "qemu-$processor" "$processor-linux-gnu-gcc" && [ -e "/usr/$processor-linux-gnu/lib/libc.a" ]; then
        "$processor-linux-gnu-gcc" -w -static -o "$room/$processor.bin" "$source" &
        compiling="$compiling $processor:$!"
    else
        left_out "the one file on $processor (there is no qemu-$processor, or no compiler for it)"
    fi
done

# (With -O2 gcc takes two minutes. Without, a program may need more than the second that a random command has.)
export PTEXT_SECONDS=30
quiet "gcc compiles it" gcc -std=c11 -DPTEXT_CHECKED -w -o "$room/gcc" "$source"
quiet "random commands" python3 tools/compare "$room/gcc" 2000
if has tcc; then
    quiet "tcc compiles it" tcc -w -o "$room/tcc" "$source"
    quiet "the tests of a program" sh tests/program.sh "$room/tcc"
    quiet "random commands by tcc" python3 tools/compare "$room/tcc" 2000
else
    left_out "the one file by tcc (there is no tcc)"
    quiet "the tests of a program" sh tests/program.sh "$room/gcc"
fi

# ends WORDS..: how both programs end at a standard stream that fails, or that is closed
ends() {
    for one in "$program" "$room/gcc"; do
        (cd "$room" && printf 'a\nb\n' | sh -c "$*" "$one" 2>&1; echo " $?") >"$room/ends.$(basename "$one")"
    done
    is "ends as the program: $*" "$(cat "$room/ends.$(basename "$program")")" "$(cat "$room/ends.gcc")"
}

printf 'x\n' >"$room/f"
ends '"$0" cut -b 1 >/dev/full'
ends '"$0" cut -b 1 >&-'
ends '"$0" cut -b 1 <&-'
ends '"$0" cut -q 2>&-'
ends '"$0" paste - f none <&-'
ends '"$0" uniq f nowhere/f'
ends '"$0" uniq none made; ls made'
ends '"$0" cut -b 1 .'
ends '"$0" cut -b 1 "$(printf "\\377")"'
ends '"$0"'
# (What both write at once is in no order.)
ends '{ yes | "$0" tr a b; echo $? >&2; } 2>said | head -n 1; cat said'
ends 'ulimit -v 400000; head -c 300000000 /dev/zero | "$0" uniq | wc -c'

# (The second has its bytes in the other order. An input of 119 KB in pieces of 7 bytes took 30 seconds there.)
export PTEXT_SECONDS=120
for one in $compiling; do
    processor=${one%:*}
    quiet "gcc compiles it for $processor" wait "${one#*:}"
    printf '#!/bin/sh\nexec qemu-%s "%s" "$@"\n' "$processor" "$room/$processor.bin" >"$room/$processor"
    chmod +x "$room/$processor"
    quiet "random commands on $processor" python3 tools/compare "$room/$processor" 200
done
echo "$count tests of the one file: $bad failed"
[ "$bad" = 0 ]
