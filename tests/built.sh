#!/bin/sh
# All tests of a built program, its pages, its installation and its packages, and of the library, the Python module, the
# page and the static program, if they are built. Nothing is proved. The last lines count and name what was left out.
# usage: tests/built.sh PROGRAM
set -u
program=$(realpath "${1:?which program?}")
cd "$(dirname "$0")/.." || exit 1
. tests/common.sh
failed=
began=$(date +%s)
# Some tests run make: they need none of its flags here, and must not start a build, even if a source is newer.
unset MAKEFLAGS MFLAGS MAKELEVEL

# test_of NAME WORDS..: runs a test and says how long it took
test_of() {
    name=$1 at=$(date +%s)
    shift
    follow "$room/log" env PTEXT_AS_BUILT=yes "$@" || failed="$failed, $name"
    echo "$name: $(($(date +%s) - at)) s"
}

# is_current FILE COMMAND: whether a file that is built is there, and newer than its source
is_current() {
    if [ ! -e "$1" ]; then
        needed "$1, which is not there ($2 builds it)"
    elif ! make -s -q "$1" 2>/dev/null; then
        needed "$1, which is older than its source ($2 builds it anew)"
    else
        return 0
    fi >>"$room/log"
    return 1
}

test_of "the program" sh tests/program.sh "$program"
test_of "calls of the system" sh tests/calls.sh "$program"
test_of "memory" sh tests/memory.sh "$program"
test_of "each number of operands" python3 tests/words.py "$program"
test_of "the definitions" sh tests/compare.sh "$program"
if [ -x build/ptext ]; then
    test_of "the installation" sh tests/install.sh
    test_of "the packages" sh tests/packages.sh
else
    needed "the installation and the packages (they are of build/ptext, which is not there)" >>"$room/log"
fi
test_of "offsets of parts" python3 bindings/python/tests/offsets.py "$program"
test_of "parts in one step" python3 bindings/python/tests/one_step.py "$program"
test_of "parts of files" sh bindings/python/tests/parallel.sh "$program"
test_of "waiting" python3 tests/waiting.py "$program"
test_of "the documents" sh tests/documents.sh "$program"
test_of "completion" python3 tests/completion.py
if is_current build/libptext.a "make lib"; then
    test_of "the library" sh bindings/c/tests/library.sh build
    test_of "parts by Dask" /usr/bin/python3 bindings/python/tests/on_dask.py "$program"
    test_of "the library and the program" python3 tools/same.py "$program" 500
    for way in functions steps descriptors python; do
        test_of "the library over streams, by $way" python3 tools/same.py "$program" 300 --by "$way"
    done
fi
if is_current build/page/ptext.html "make page"; then
    test_of "the page" sh bindings/page/tests/page.sh "$program"
fi
if has wasm-opt wasm2c && is_current build/onefile/ptext.c "make onefile"; then
    test_of "the one file" sh bindings/onefile/tests/onefile.sh "$program"
elif ! has wasm-opt wasm2c; then
    left_out "the one file (there is no wasm2c, or no wasm-opt)" >>"$room/log"
fi
if is_current build/ptext-static "make static"; then
    test_of "the static program" sh tests/static.sh build/ptext-static
    for file in build/ptext-by-name build/ptext-by-name-static; do
        test_of "the tools by their own names" python3 tests/by_name.py "$file" "$program"
    done
fi
if is_current build/ptext-second "make second"; then
    test_of "the second compiler" python3 tests/witness.py "$program" build/ptext-second 20000
fi
if [ -e build/musl/libptext.a ]; then
    test_of "the library with musl" sh bindings/c/tests/elsewhere.sh build/musl \
        "gcc -specs /usr/lib/x86_64-linux-musl/musl-gcc.specs"
else
    left_out "the library with musl (musl-tools is not there, or make lib was not run)" >>"$room/log"
fi
if [ -e build/aarch64/ptext-static ]; then
    test_of "ARM64" sh tests/emulated.sh "$program"
else
    left_out "what is built for ARM64 (make static lib TARGET=aarch64 builds it)" >>"$room/log"
fi
sed -n 's/^left out: //p' "$room/log" | sort -u >"$room/left.out"
echo "all tests took $(($(date +%s) - began)) s"
if [ -s "$room/left.out" ]; then
    echo "left out: $(wc -l <"$room/left.out")"
    sed 's/^/  /' "$room/left.out"
    if [ "${PTEXT_GATE:-}" = all ]; then
        failed="$failed, what was left out (in continuous integration nothing is)"
    elif [ "$bad" != 0 ]; then
        failed="$failed, what was left out and make test needs"
    fi
fi
if [ "$failed" ]; then
    echo "FAILED: ${failed#, }"
    exit 1
fi
echo "all tests passed$([ -s "$room/left.out" ] && echo ", but for those left out")"
