#!/bin/sh
# Tests the library for C and the Python module over it: the examples, bad arguments, too little room, streams (also with
# sanitizers, and each request for memory refused), threads, what it exports; and, if it is in build/, that it is
# installed, found by pkg-config and removed, and that the wheel of `make python` has it.
# usage: bindings/c/tests/library.sh [FOLDER]      FOLDER has ptext, libptext.so, libptext.a and ptrunc.a (build/)
set -eu
built=$(realpath "${1:-build}")
cd "$(dirname "$0")/../../.."
. tests/common.sh
flags="-std=c11 -O2 -Wall -Wextra -Werror -Ibindings/c"
gcc $flags -o "$room/example" bindings/c/example.c "$built/libptext.a"
gcc $flags -o "$room/shared" bindings/c/example.c -L"$built" -lptext
gcc $flags -pthread -Wl,--wrap=malloc,--wrap=realloc -o "$room/calls" bindings/c/tests/library.c "$built/libptext.a"
gcc $flags -o "$room/pointers" bindings/c/tests/pointers.c bindings/c/ptext.c
gcc $flags -pthread -o "$room/alone" bindings/c/tests/alone.c bindings/c/stream.c \
    native/stack.c
drinks=$(printf '1,ann,tea\n2,bob,milk\n')
for program in example shared; do
    is "bindings/c/example.c, $program" "$drinks" "$(LD_LIBRARY_PATH=$built "$room/$program")"
done
"$room/calls"
"$room/pointers"
"$room/alone"
painted="-DPAINTED -Wl,--wrap=mmap,--wrap=munmap"
gcc $flags -pthread $painted -o "$room/streams" bindings/c/tests/streams.c "$built/libptext.a"
"$room/streams"
refuse="-DREFUSED -Wl,--wrap=malloc,--wrap=calloc,--wrap=realloc"
gcc $flags -pthread $refuse -o "$room/refused" bindings/c/tests/streams.c "$built/libptext.a"
"$room/refused"
# (What is compiled anew for sanitizers is bindings/c and its tests. ThreadSanitizer and valgrind know no stacks of steps.)
parts="bindings/c/ptext.c bindings/c/stream.c $built/ptrunc.a"
calls="bindings/c/tests/library.c" streams="bindings/c/tests/streams.c"
for with in "address,undefined $calls" "thread $calls" "address,undefined $streams" \
    "address,undefined $refuse $streams" "thread -DNO_STEPS $streams"; do
    if gcc $flags -DSANITIZED -g -O1 -pthread -fsanitize=$with -o "$room/checked" $parts 2>"$room/said"; then
        if ! "$room/checked" 2>"$room/said"; then
            # (Some kernels place memory where ThreadSanitizer cannot have it.)
            if grep -q 'unexpected memory mapping' "$room/said"; then
                left_out "the library with -fsanitize=$with (the kernel does not let it)"
            else
                bad=$((bad + 1))
                cat "$room/said"
            fi
        fi
    else
        left_out "the library with -fsanitize=$with (gcc has it not)"
    fi
done
if has valgrind; then
    gcc $flags -g -pthread -DNO_STEPS -o "$room/checked" bindings/c/tests/streams.c "$built/libptext.a"
    valgrind -q --leak-check=full --error-exitcode=9 "$room/checked" || bad=$((bad + 1))
else
    left_out "streams by valgrind (it is not there)"
fi
# ---- bindings/c/filter.c does as the program
printf '1,ann\n2,bob\n' >"$room/people"
printf '1,tea\n2,milk\n' >"$room/drinks"
gcc $flags -o "$room/filter" bindings/c/filter.c "$built/libptext.a"
is "filter join" "$drinks" "$(cd "$room" && ./filter join -t , - drinks <people)"
is "filter cut" "$(printf '1\ncut: none: cannot be opened\n1')" "$(cd "$room" && head -n 1 people | ./filter cut -b 1 - none 2>&1 || echo $?)"
is "filter uniq" "$(printf '1,ann\n2,bob')" "$(cd "$room" && ./filter uniq people made && cat made)"
is "filter, no output file" "$(printf 'uniq: none/made: cannot be opened\n1')" "$(cd "$room" && ./filter uniq people none/made 2>&1 || echo $?)"
is "filter, no input" "$(printf 'paste: standard input: read failed\n1')" "$(cd "$room" && ./filter paste - people 2>&1 <&- || echo $?)"
is "filter, no command" 2 "$("$room/filter" cut 2>/dev/null || echo $?)"
# ---- half a gigabyte in 8 MB of memory
if [ "$(uname)" = Linux ]; then
    is "a long stream" 120000000 "$(yes 'a,b,c,d' | head -n 60000000 | (ulimit -v 8192 && "$room/filter" cut -d , -f 2) | wc -c)"
fi
# ---- nothing but the calls of ptext.h is exported
calls=$(sed -n 's/^[a-z].* \**\(ptext_[a-z_]*\)(.*/\1/p' bindings/c/ptext.h | grep -v '^ptext_read$\|^ptext_write$' | sort)
is "exports of libptext.so" "$calls" "$(nm -D --defined-only "$built/libptext.so" | sed -n 's/.* T \(.*\)@@.*/\1/p' | sort)"
is "exports of libptext.a" "$calls" "$(nm -g --defined-only "$built/libptext.a" | sed -n 's/.* T //p' | sort)"
# (The tests of make need none of its flags, and start no build.)
unset MAKEFLAGS MFLAGS MAKELEVEL
export PTEXT_AS_BUILT=yes
# at WORDS..: make, without its own messages
at() {
    make -s "$@" PREFIX="$room/a b" DESTDIR= libdir="$room/a b/lib64" >"$room/said" || cat "$room/said"
}
if [ "$built" = "$PWD/build" ]; then
    mkdir "$room/a b"
    at install-lib
    if has pkg-config; then
        export PKG_CONFIG_PATH="$room/a b/lib64/pkgconfig"
        (eval "set -- $(pkg-config --cflags --libs ptext)" && gcc -o "$room/installed" bindings/c/example.c "$@")
    else
        left_out "pkg-config (it is not there)"
        gcc -o "$room/installed" bindings/c/example.c "-I$room/a b/include" "-L$room/a b/lib64" -lptext
    fi
    is "the installed library" "$drinks" "$(LD_LIBRARY_PATH="$room/a b/lib64" "$room/installed")"
    is "its page" yes "$([ -s "$room/a b/share/man/man3/ptext.3" ] && echo yes)"
    is "its licenses" "LICENSE-APACHE LICENSE-MIT NOTICES " \
        "$(find "$room/a b/share/doc/libptext" -type f -size +0 -printf '%f\n' | LC_ALL=C sort | tr '\n' ' ')"
    at uninstall
    is "nothing is left" "" "$(ls -A "$room/a b")"
    if [ -e /usr/lib/python3/dist-packages/setuptools ] && [ -e /usr/lib/python3/dist-packages/wheel ]; then
        make -s python >"$room/said" 2>&1 || cat "$room/said"
        # (A wheel is an archive of what is installed.)
        wheel=$(echo build/dist/ptext-*manylinux*_x86_64.whl)
        is "its name" "" "$(echo "$wheel" | grep -v -- '-py3-none-manylinux_2_[0-9]*_x86_64[.]whl$')"
        /usr/bin/python3 -m zipfile -e "$wheel" "$room/wheel"
        is "the wheel" "a c" "$(cd "$room/wheel" && echo 'a b c' | /usr/bin/python3 -m ptext cut -d ' ' -f 1,3)"
        is "its library" same "$(cmp -s "$room/wheel/ptext/libptext.so" "$built/libptext.so" && echo same)"
        about=$room/wheel/ptext-$(cat VERSION).dist-info
        is "its licenses" "LICENSE-APACHE LICENSE-MIT NOTICES " \
            "$(cd "$about" && find . -name '[LN]*' -size +0 -printf '%f\n' | LC_ALL=C sort | tr '\n' ' ')"
        is "its description" 1 "$(grep -c '^    >>> ptext.join(' "$about/METADATA")"
    else
        left_out "the wheel of the Python module (there is no setuptools, or no wheel)"
    fi
fi
cd bindings/python
export PTEXT_LIBRARY="$built/libptext.so" PYTHONDONTWRITEBYTECODE=1
timeout --foreground 600 python3 -m unittest discover -s tests || bad=$((bad + 1))
if [ -e /usr/lib/python3/dist-packages/pandas ]; then
    table='pandas.read_csv(ptext.stream(["cut", "-d,", "-f1,3"], stdin=b"a,b,c\n1,x,2\n3,y,4\n").file())'
    is "pandas" "4 6" "$(/usr/bin/python3 -c "import pandas, ptext; print(*$table.sum())")"
else
    left_out "a stream that pandas reads (it is not there)"
fi
if has mypy; then
    words="--strict --follow-imports=silent --no-error-summary --cache-dir $room/mypy"
    is "the types of a program" "" "$(MYPYPATH=. mypy $words tests/user.py 2>&1)"
else
    left_out "the types of a program by mypy (it is not there)"
fi
[ "$bad" = 0 ]
