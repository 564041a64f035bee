#!/bin/sh
# Tests the library as it is built for another processor or with another C library: the example, by both of its files,
# and all calls, with streams and steps.
# usage: bindings/c/tests/elsewhere.sh FOLDER COMPILER [RUNNER]      FOLDER has libptext.so and libptext.a (build/musl)
set -u
built=$(realpath "${1:?which folder?}")
compiler="${2:?which compiler?} -std=c11 -O2 -Wall -Wextra -Werror -pthread -Ibindings/c"
runner=${3:-}
cd "$(dirname "$0")/../../.." || exit 1
. tests/common.sh
$compiler -o "$room/static" bindings/c/example.c "$built/libptext.a"
$compiler -o "$room/shared" bindings/c/example.c -L"$built" -lptext "-Wl,-rpath,$built"
for program in static shared; do
    is "bindings/c/example.c, $program" "$(printf '1,ann,tea\n2,bob,milk\n')" "$($runner "$room/$program")"
done
$compiler -Wl,--wrap=malloc,--wrap=realloc -o "$room/library" bindings/c/tests/library.c "$built/libptext.a"
$compiler -o "$room/streams" bindings/c/tests/streams.c "$built/libptext.a"
for test in library streams; do
    $runner "$room/$test" >"$room/said" 2>&1 || bad=$((bad + 1))
    sed "s|^|$1: |" "$room/said"
done
[ "$bad" = 0 ]
