#!/bin/sh
# The gate: every proof and most wrong bodies. Then the program, the static one, the library, the Python module, the
# page and the one file, built from what it has just proved; and all tests of these. The last line is the gate's; if
# more failed than the gate tried, that is counted there.
# usage: tests/all.sh
set -eu
cd "$(dirname "$0")/.."
. tests/common.sh
# (In continuous integration no test may be left out.)
PTEXT_GATE=$([ "${CI:-}" = true ] && echo all || echo yes)
export PTEXT_GATE
log=build/gate.log passed=0
mkdir -p build

# fail WHAT: ends the gate
fail() {
    echo "the gate fails: $1"
    echo "$passed passed, 1 failed"
    exit 1
}

# Nothing that an earlier run made is tested.
rm -f "$log" crates/ptext/out/ptext* build/libptext* build/ptext-* build/page/ptext.html build/onefile/* \
    build/musl/* build/aarch64/*ptext* build/aarch64/musl/*
follow "$log" python3 tests/edits.py || fail "a wrong body is missing, or does not show that a contract refuses it"
status=0
follow "$log" rt ci || status=$?
last=$(tail -n 1 "$log")
passed=$(expr "$last" : '\([1-9][0-9]*\) passed, 0 failed$') || {
    case $last in
        *[1-9]' failed') exit 1 ;;
        *) passed=0 && fail "the last line of rt ci is not that something passed and nothing failed" ;;
    esac
}
[ "$status" = 0 ] || fail "rt ci ended with status $status"
# `rt ci` passes wrong bodies that say nothing of a contract.
if grep 'BAD EDIT\|says little of the contract' "$log"; then
    fail "a wrong body does not show that a contract refuses it"
fi
[ -x crates/ptext/out/ptext ] || fail "rt ci made no program"
unset MAKEFLAGS MFLAGS MAKELEVEL
# (By the script: make would keep a program of an earlier run that is newer than its source.)
follow "$log" python3 tools/builder program || fail "make"
# (The gate has judged what a program calls, of the one that it made.)
[ "$(nm -D --undefined-only build/ptext)" = "$(nm -D --undefined-only crates/ptext/out/ptext)" ] ||
    fail "build/ptext calls what the gate has not judged"
follow "$log" python3 tools/builder static || fail "make static"
for target in lib page second $(has wasm-opt wasm2c && echo onefile); do
    follow "$log" make --no-print-directory "$target" || fail "make $target"
done
! has aarch64-linux-gnu-gcc || follow "$log" make --no-print-directory -j2 static lib TARGET=aarch64 ||
    fail "make static lib TARGET=aarch64"
follow "$log" sh tests/built.sh build/ptext || fail "a test of what was built"
follow "$log" sh tests/definitions.sh build/ptext || fail "a definition does not give what it should"
echo "$last"
