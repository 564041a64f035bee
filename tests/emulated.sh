#!/bin/sh
# Tests what is built for ARM64, by the emulator qemu: the static program by tests/program.sh, each number of operands,
# the examples of the documents, and as the program for this processor on random commands; the tools by their own names;
# the program with the shared C library; the library, with both C libraries; the wheels, the archive and the packages.
# Emulation is no proof of hardware. (tests/calls.sh and memory.sh look into a process, which is the emulator's here.)
# usage: tests/emulated.sh PROGRAM (after make static lib TARGET=aarch64)
set -u
program=$(realpath "${1:?which program?}")
cd "$(dirname "$0")/.." || exit 1
. tests/common.sh
built=$(realpath build/aarch64) version=$(cat VERSION) gcc=aarch64-linux-gnu-gcc
if ! has qemu-aarch64-static $gcc; then
    left_out "what is built for ARM64 (there is no qemu-aarch64-static, or no $gcc)"
    [ "$bad" = 0 ]
    exit
fi
qemu=$(command -v qemu-aarch64-static)
shared="$qemu -L /usr/aarch64-linux-gnu"

# test_of WORDS..: runs a test, and says what failed
test_of() {
    "$@" >"$room/said" 2>&1 && tail -n 1 "$room/said" && return
    bad=$((bad + 1))
    cat "$room/said"
    echo "FAILED for ARM64: $*"
}

# Tests call the program by a script. (One runs it as nobody.)
cp "$built/ptext-static" "$room/static"
printf '#!/bin/sh\nexec "%s" "%s" "$@"\n' "$qemu" "$room/static" >"$room/ptext"
chmod 755 "$room" "$room/static" "$room/ptext"
for file in ptext-static ptext-by-name-static ptext ptext-by-name "libptext.so.$version"; do
    is "the processor of $file" AArch64 "$(readelf -h "$built/$file" | sed -n 's/^ *Machine: *//p')"
done
# (Beside the others, since it takes two minutes.)
python3 tests/words.py "$room/ptext" >"$room/words" 2>&1 &
counting=$!
test_of sh tests/program.sh "$room/ptext" "$qemu" "$room/static"
test_of python3 tests/examples.py "$room/ptext"
test_of python3 tests/witness.py "$program" "$qemu $built/ptext-static" 2000
for tool in cut paste join comm uniq tr none; do
    for by in "$qemu -0 /bin/$tool $built/ptext-by-name-static" "$shared -0 /bin/$tool $built/ptext-by-name"; do
        is "by its own name: $by" "$("$program" $tool -s x 2>&1 </dev/null; echo $?)" \
            "$($by -s x 2>&1 </dev/null; echo $?)"
    done
done
is "the program with the shared C library" acd "$(echo abcd | $shared "$built/ptext" cut -c 3-,1)"
test_of sh bindings/c/tests/elsewhere.sh "$built" $gcc "$shared"
test_of sh bindings/c/tests/elsewhere.sh "$built/musl" "$gcc -specs /usr/lib/aarch64-linux-musl/musl-gcc.specs" "$qemu"
# ---- what is handed on
for libc in glibc musl; do
    make -s python TARGET=aarch64 LIBC=$libc PTEXT_AS_BUILT=yes >"$room/said" 2>&1 || cat "$room/said"
done
for platform in manylinux_2_17 musllinux_1_2; do
    python3 -m zipfile -e "build/dist/ptext-$version-py3-none-${platform}_aarch64.whl" "$room/$platform"
done
python3 tools/dist.py archives "$room/dist" --changed >"$room/said" 2>&1 || cat "$room/said"
mkdir "$room/archive" "$room/package"
tar -xzf "$room/dist/ptext-$version-linux-aarch64.tar.gz" -C "$room/archive" --strip-components=1
packages=
if has dpkg-buildpackage dh; then
    python3 tools/dist.py deb "$room/dist" aarch64 >"$room/said" 2>&1 || cat "$room/said"
    for name in ptext ptext-tools; do
        file=$room/dist/${name}_$version-1_arm64.deb
        dpkg-deb -x "$file" "$room/package"
        is "the architecture and the C library of $name" "arm64 yes" "$(dpkg-deb -f "$file" Architecture) $(
            dpkg-deb -f "$file" Depends | grep -q 'libc6 (>= 2[.]' && echo yes)"
    done
    packages="package/usr/bin/ptext package/usr/libexec/ptext/tool"
    ! has lintian || lintian --fail-on none -I "$room/dist/ptext_$version-1_arm64.changes" 2>/dev/null | grep '^[EWI]:'
else
    left_out "the Debian packages for ARM64 (there is no dpkg-buildpackage, or no debhelper)"
fi
for file in manylinux_2_17/ptext/libptext.so musllinux_1_2/ptext/libptext.so archive/bin/ptext \
    archive/libexec/ptext/tool $packages; do
    is "the processor of $file" AArch64 "$(readelf -h "$room/$file" | sed -n 's/^ *Machine: *//p')"
done
for file in archive/bin/ptext ${packages%% *}; do
    is "what $file does" acd "$(echo abcd | $shared "$room/$file" cut -c 3-,1)"
done
wait "$counting" || bad=$((bad + 1))
cat "$room/words"
echo "$count checks and $bad failures of what is built for ARM64, by qemu"
[ "$bad" = 0 ]
