#!/bin/sh
# Tests the installation: into an empty folder, the program and each tool by its name, as links to one file and as
# scripts, the page and the completion of each, and that nothing is left behind; and that also below another root, into
# folders of other names, and beside files that were there before.
# usage: tests/install.sh (the program is built)
set -u
top=$(cd "$(dirname "$0")/.." && pwd)
. "$top/tests/common.sh"

# answer COMMAND..: what is said and how it ends, on the input of these tests
answer() {
    printf 'b\na\n' | "$@" 2>&1
    echo "status $?"
}

install() {
    make -s -C "$top" "$@" >"$room/said" 2>&1 || cat "$room/said"
}

# fails WORDS..: what an installation says that has to fail, without what make adds
fails() {
    make -s -C "${tree:-$top}" "$@" >"$room/said" 2>&1 && echo "it did not fail"
    grep -v '^make' "$room/said"
}

# listed FOLDER: all that is in it
listed() {
    (cd "$1" && find . | sort | tr '\n' ' ')
}

# named FOLDER: tests the tools by their own names in this folder, and that of the program
named() {
    bin=$1/libexec/ptext/bin
    is "the tools by name" "comm cut join paste tr uniq" "$(ls "$bin" | tr '\n' ' ' | sed 's/ $//')"
    for words in 'cut -c 1' 'paste -s -' 'uniq -c' 'tr a-b x' 'comm - none' 'join - none' 'cut -x' 'tr a'; do
        # The words of a row have no blanks of their own.
        set -- "$1" $words
        name=$2
        is "$words" "$(shift && answer "$room/empty/bin/ptext" "$@")" "$(shift 2 && answer "$bin/$name" "$@")"
    done
    is "a value with blanks" "a b" "$(printf 'a b\n' | "$bin/cut" -d 'x' -f '1 2')"
    is "cut by name" "a" "$(printf 'ab\n' | PATH=$bin:$PATH cut -c 1)"
    is "a link to it" "a" "$(ln -sf "$bin/cut" "$room/cut" && printf 'ab\n' | "$room/cut" -c 1)"
}

# (A tree of the source, with a program that no C compiler linked once more.)
mkdir -p "$room/tree/build"
tar -C "$top" -cf - --exclude='crates/*/out' Makefile VERSION HANDLES crates.txt crates docs man completion debian \
    tools native bindings | tar -xf - -C "$room/tree"
cp "$top/build/ptext" "$room/tree/build/ptext"

mkdir "$room/empty" "$room/root" "$room/used"
make -s -C "$room/tree" PTEXT_AS_BUILT=yes install-tools PREFIX="$room/scripts" DESTDIR= >"$room/said" 2>&1 ||
    cat "$room/said"
install install-tools PREFIX="$room/empty" DESTDIR=
is "scripts, where no C compiler linked the tools" "exec $room/scripts/bin/ptext cut \"\$@\"" \
    "$(tail -n 1 "$room/scripts/libexec/ptext/bin/cut")"
named "$room/scripts"
make -s -C "$room/tree" uninstall PREFIX="$room/scripts" DESTDIR= >"$room/said"
is "nothing is left of them" "" "$(ls -Ad "$room/scripts" 2>/dev/null)"
if [ -x "$top/build/ptext-by-name" ]; then
    is "one file with six names" "6 ../tool" "$(for tool in comm cut join paste tr uniq; do
        readlink "$room/empty/libexec/ptext/bin/$tool"; done | uniq -c | sed 's/^ *//')"
    is "by no tool's name" "ptext: first word: cut, paste, join, comm, uniq or tr
status 2" "$(answer "$room/empty/libexec/ptext/tool" -c 1)"
else
    needed "the tools as one file (build/ptext-by-name is not there: make static, which needs gcc, links it)"
fi
named "$room/empty"
for page in ptext.1 ptext-comm.1 ptext-cut.1 ptext-join.1 ptext-parts.1 ptext-paste.1 ptext-tr.1 ptext-uniq.1 \
    ptext-replacing.7; do
    is "page $page" yes "$([ -s "$room/empty/share/man/man${page##*.}/$page" ] && echo yes)"
done
printf 'a 1\nb 2\n' >"$room/sorted"
is "ptext-parts" "[[0, 8]]" "$(PATH=$room/empty/bin:$PATH ptext-parts plan 2 uniq "$room/sorted" | sed -n 2p)"
is "ptext-slurm.sh" yes "$([ -x "$room/empty/share/ptext/ptext-slurm.sh" ] && echo yes)"
for tool in cut paste join comm uniq tr; do
    is "$tool.1 beside the tools" same "$(cmp -s "$room/empty/libexec/ptext/man/man1/$tool.1" \
        "$room/empty/share/man/man1/ptext-$tool.1" && echo same)"
    if manpath --version 2>/dev/null | grep -q ^manpath; then
        is "man $tool" "$room/empty/libexec/ptext/man/man1/$tool.1" "$(PATH=$bin:$PATH man -w "$tool")"
    fi
done
for file in bash-completion/completions/ptext zsh/site-functions/_ptext fish/vendor_completions.d/ptext.fish \
    bash-completion/completions/ptext-parts fish/vendor_completions.d/ptext-parts.fish \
    bash-completion/completions/ptext-tools zsh/site-functions/_ptext_tools fish/vendor_completions.d/cut.fish; do
    is "completion $file" yes "$([ -s "$room/empty/share/$file" ] && echo yes)"
done
if command -v strip >/dev/null && command -v readelf >/dev/null; then
    is "it is stripped" "" "$(readelf -S "$room/empty/bin/ptext" | grep -F .symtab)"
fi
install uninstall PREFIX="$room/empty" DESTDIR=
is "nothing is left" "" "$(ls -A "$room/empty")"

install install install-tools PREFIX=/usr DESTDIR="$room/root"
is "no root in a file" "" "$(grep -rl "$room" "$room/root")"
# (A script starts the program without the root.)
[ ! -x "$top/build/ptext-by-name" ] ||
    is "a tool below a root" b "$(echo ab | "$room/root/usr/libexec/ptext/bin/cut" -c 2)"
install uninstall PREFIX=/usr DESTDIR="$room/root"
is "nothing is left below a root" "" "$(ls -A "$room/root")"

mkdir -p "$room/used/bin" "$room/used/share/man"
: >"$room/used/share/other"
install install PREFIX="$room/used" DESTDIR=
install install PREFIX="$room/used" DESTDIR=
install uninstall PREFIX="$room/used" DESTDIR=
is "what was there stays" ". ./bin ./share ./share/man ./share/other " \
    "$(cd "$room/used" && find . | sort | tr '\n' ' ')"

# A DESTDIR that does not begin with a slash is below the folder in which make runs.
rm -rf "$top/build/rooted"
mkdir "$top/build/rooted"
install install PREFIX=/usr DESTDIR=build/rooted
is "a relative DESTDIR" yes "$([ -x "$top/build/rooted/usr/bin/ptext" ] && echo yes)"
install uninstall PREFIX=/usr DESTDIR=build/rooted
is "nothing is left below a relative DESTDIR" "./ " "$(listed "$top/build/rooted" | sed 's/^\. /.\/ /')"
rmdir "$top/build/rooted"

# Each says what it did, in one line.
mkdir "$room/said.here"
is "what install says" \
    "installed in $room/said.here: bin/ptext (of build/ptext) and ptext-parts, 9 pages in share/man, completion for bash, zsh and fish, share/ptext/ptext-slurm.sh" \
    "$(make -s -C "$top" install PREFIX="$room/said.here" DESTDIR= STATIC=no)"
is "what install-tools says" \
    "to complete them in bash, ~/.bash_completion needs: . $room/said.here/share/bash-completion/completions/ptext-tools
installed in $room/said.here/libexec/ptext/bin: cut, paste, join, comm, uniq, tr" \
    "$(make -s -C "$top" install-tools PREFIX="$room/said.here" DESTDIR= | tail -n 2)"
is "what uninstall says" "what was installed in $room/said.here is removed" \
    "$(make -s -C "$top" uninstall PREFIX="$room/said.here" DESTDIR=)"
is "and a second time" "nothing is noted as installed in $room/said.here" \
    "$(make -s -C "$top" uninstall PREFIX="$room/said.here" DESTDIR=)"

# prefix in small letters is the same.
mkdir "$room/small"
install install prefix="$room/small" DESTDIR=
is "prefix in small letters" yes "$([ -x "$room/small/bin/ptext" ] && echo yes)"
install uninstall prefix="$room/small" DESTDIR=
is "and away again" "" "$(ls -A "$room/small")"

# A blank in the prefix: the line for bash can be used as it is.
is "a prefix with a blank" "to complete them in bash, ~/.bash_completion needs: \
. '$room/a b/share/bash-completion/completions/ptext-tools'" \
    "$(make -s -C "$top" install-tools PREFIX="$room/a b" DESTDIR= | sed -n '/bash_completion/p')"
is "a tool there" b "$(echo ab | "$room/a b/libexec/ptext/bin/cut" -c 2)"
install uninstall PREFIX="$room/a b" DESTDIR=
is "nothing is left of it" "" "$(ls -Ad "$room/a b" 2>/dev/null)"

# The folders and the command that other projects let one choose too.
mkdir "$room/parts.of"
set -- prefix=/usr bindir=/usr/progs libexecdir=/usr/lib datadir=/opt/data mandir=/usr/man DESTDIR="$room/parts.of" \
    STATIC=no
is "what install says of other folders" "installed in $room/parts.of/usr: progs/ptext (of build/ptext) and ptext-parts, 9 \
pages in man, completion for bash, zsh and fish, $room/parts.of/opt/data/ptext/ptext-slurm.sh" \
    "$(make -s -C "$top" install "$@" INSTALL_PROGRAM='install -m 511')"
install install-tools "$@" INSTALL_PROGRAM='install -m 511'
is "the mode of INSTALL_PROGRAM" 511 "$(stat -c %a "$room/parts.of/usr/progs/ptext")"
is "its program, with its symbols" same "$(cmp -s "$top/build/ptext" "$room/parts.of/usr/progs/ptext" && echo same)"
is "a tool in another libexec" yes "$([ -x "$room/parts.of/usr/lib/ptext/bin/uniq" ] && echo yes)"
is "the folders" "opt opt/data usr usr/lib usr/man usr/progs " \
    "$(cd "$room/parts.of" && find . -mindepth 1 -maxdepth 2 | sed 's|^[.]/||' | sort | tr '\n' ' ')"
install uninstall "$@"
is "nothing is left of other folders" "" "$(ls -A "$room/parts.of")"
is "a command that fails" "cannot install: $room/parts.of/usr/bin/ptext: false failed. Nothing was installed." \
    "$(fails install prefix=/usr DESTDIR="$room/parts.of" INSTALL_PROGRAM=false)"
# (Whoever started this may ignore SIGINT, as a shell's background does.)
is "an installation that is stopped halfway" "stopped: nothing was installed." \
    "$(env --default-signal=INT python3 "$top/tools/install.py" install /usr "$room/parts.of" \
        INSTALL_PROGRAM="sh -c 'kill -INT \$PPID; sleep 9'" 2>&1)"
is "an empty folder" "mandir is empty. Nothing was done." \
    "$(fails install prefix=/usr DESTDIR="$room/parts.of" mandir=)"
is "nothing is left of them" "" "$(ls -A "$room/parts.of")"
set --

# The program without shared libraries is taken if it is not older than the other one, unless STATIC=no, with the license
# of its C library; and so is the file of the tools. (Here they are the other one with one more line, and with two.)
if [ -f /usr/share/common-licenses/LGPL-2.1 ]; then
    mkdir "$room/static"
    { cat "$top/build/ptext" && echo; } >"$room/tree/build/ptext-static"
    { cat "$top/build/ptext" && echo && echo; } >"$room/tree/build/ptext-by-name-static"
    set -- PTEXT_AS_BUILT=yes PREFIX="$room/static" DESTDIR= INSTALL_PROGRAM='install -m 755'
    for wanted in static-yes-musl static-yes-glibc dynamic-no-musl dynamic--musl; do
        echo "${wanted##*-}" >"$room/tree/build/ptext-static.libc"
        given=${wanted#*-}
        make -s -C "$room/tree" install install-tools "$@" STATIC="${given%-*}" >"$room/said"
        [ "${wanted%%-*}" = static ] && other=-static || other=
        is "the program that is taken ($wanted)" same \
            "$(cmp -s "$room/tree/build/ptext$other" "$room/static/bin/ptext" && echo same)"
        is "it says which ($wanted)" 1 "$(grep -c "bin/ptext (of build/ptext$other[),]" "$room/said")"
        is "the tools that are taken ($wanted)" "${other:+same}" "$(cmp -s "$room/tree/build/ptext-by-name-static" \
            "$room/static/libexec/ptext/tool" && echo same)"
        case $wanted in
            static-*-glibc) license='GNU LESSER GENERAL' ;;
            static-*-musl) license='Rich Felker' ;;
            *) license= ;;
        esac
        [ "$license" = "" ] || is "the license of its C library ($wanted)" yes \
            "$(grep -q "$license" "$room/static/share/ptext/NOTICES" && echo yes)"
        make -s -C "$room/tree" uninstall PREFIX="$room/static" DESTDIR= >/dev/null
        is "nothing is left of it ($wanted)" "" "$(ls -A "$room/static")"
        [ "$given" != no-musl ] || touch -d 2001-01-01 "$room/tree/build/ptext-static"
    done
    set --
fi

# As root, an installation proves nothing: it says what to do first.
if [ "$(id -u)" = 0 ]; then
    mkdir "$room/copy" "$room/unbuilt"
    tar -C "$top" -cf - --exclude='crates/*/out' Makefile HANDLES crates.txt crates tools | tar -xf - -C "$room/copy"
    for state in missing older; do
        is "root, where the program is $state" "build/ptext is not there, or older than its source. Run 'make' first, \
best not as root: it proves the program, which takes half an hour. Nothing was installed." \
            "$(unset PTEXT_AS_BUILT; tree=$room/copy && fails install PREFIX="$room/unbuilt" DESTDIR=)"
        mkdir -p "$room/copy/build"
        cp "$top/build/ptext" "$room/copy/build"
        touch -d 2001-01-01 "$room/copy/build/ptext"
    done
    is "nothing is installed then" "" "$(ls -A "$room/unbuilt")"
fi

# Others can enter what is made under a strict umask.
mkdir "$room/strict"
(umask 077 && install install-tools PREFIX="$room/strict" DESTDIR=)
is "folders that others can enter" "" "$(find "$room/strict" -mindepth 1 -type d ! -perm 755)"
is "files that others can read" "" "$(find "$room/strict" -type f ! -perm -444)"

# Where something is in the way halfway, one message says it, and all is as it was before: in an empty folder, and over
# an earlier installation.
mkdir -p "$room/blocked/share"
: >"$room/blocked/share/man"
before=$(listed "$room/blocked")
is "a file in the way" "cannot install: $room/blocked/share/man: File exists. Nothing was installed." \
    "$(fails install PREFIX="$room/blocked" DESTDIR=)"
is "nothing is left behind" "$before" "$(listed "$room/blocked")"
# (A limit on the size of files is like a full disk. The messages of strip are left out.)
is "no room for the program" "cannot install: $room/blocked/bin/ptext: File too large. Nothing was installed." \
    "$(rm "$room/blocked/share/man" && ulimit -f 16 && fails install PREFIX="$room/blocked" DESTDIR= | grep '^cannot')"
is "nothing is left of it" ". ./share " "$(listed "$room/blocked")"
is "an empty prefix" "PREFIX is empty. Nothing was done." "$(fails install PREFIX= DESTDIR=)"
is "a prefix with a tilde" "PREFIX begins with ~, which the shell did not expand: write \$HOME. Nothing was done." \
    "$(fails install PREFIX='~/x' DESTDIR=)"
install install PREFIX="$room/strict" DESTDIR=
rm "$room/strict/share/man/man1/ptext.1"
mkdir "$room/strict/share/man/man1/ptext.1"
before=$(listed "$room/strict")
is "a folder in the way" \
    "cannot install: $room/strict/share/man/man1/ptext.1: there is a folder of that name. Nothing was installed." \
    "$(fails install PREFIX="$room/strict" DESTDIR=)"
is "the earlier installation is unchanged" "$before" "$(listed "$room/strict")"
rmdir "$room/strict/share/man/man1/ptext.1"
install uninstall PREFIX="$room/strict" DESTDIR=
is "and goes whole" "" "$(ls -A "$room/strict")"

# Files of others stay, also those with odd names.
mkdir "$room/others" "$room/others/bin"
for name in ptext.new ptext.old; do
    echo kept >"$room/others/bin/$name"
done
before=$(listed "$room/others")
install install PREFIX="$room/others" DESTDIR=
install install PREFIX="$room/others" DESTDIR=
is "nothing of its own is left beside them" "" "$(find "$room/others" -name '.ptext-*')"
install uninstall PREFIX="$room/others" DESTDIR=
is "files of others stay" "$before" "$(listed "$room/others")"

# Without rights: as nobody, where the tests run as root.
mkdir "$room/locked"
chmod 555 "$room/locked"
chmod 711 "$room"
as=
[ "$(id -u)" = 0 ] && as='setpriv --reuid=65534 --regid=65534 --clear-groups'
# (Nobody may not be able to read this folder.)
mkdir -p "$room/readable"
tar -C "$top" -cf - tools man docs completion bindings VERSION crates/ptopts/src/tool.rt build/ptext |
    tar -xf - -C "$room/readable"
chmod -R a+rX "$room/readable"
for python in python3 /usr/bin/python3; do
    $as "$python" -c 'open("'"$room"'/readable/build/ptext")' 2>/dev/null && break
    python=
done
if [ -n "$python" ]; then
    is "no rights" "cannot install: $room/locked/bin: Permission denied. Nothing was installed." \
        "$($as "$python" "$room/readable/tools/install.py" install "$room/locked" 2>&1)"
    is "nothing is left without rights" "" "$(ls -A "$room/locked")"
    mkdir "$room/theirs"
    install install PREFIX="$room/theirs" DESTDIR=
    before=$(listed "$room/theirs")
    chmod -R a-w "$room/theirs"
    is "no rights to take it away" \
        "cannot uninstall: $room/theirs/bin/ptext: Permission denied. What is left is noted in $room/theirs/share/ptext/installed." \
        "$($as "$python" "$room/readable/tools/install.py" uninstall "$room/theirs" 2>&1)"
    is "it is unchanged, and its notes" "$before" "$(listed "$room/theirs")"
    # If only some of it may be taken away, the notes stay.
    chmod -R a+w "$room/theirs"
    chmod 555 "$room/theirs/share/man/man7"
    is "no rights to take away all" "cannot uninstall: $room/theirs/share/man/man7/ptext-replacing.7: Permission denied. \
What is left is noted in $room/theirs/share/ptext/installed." \
        "$($as "$python" "$room/readable/tools/install.py" uninstall "$room/theirs" 2>&1)"
    is "the notes stay" yes "$([ -s "$room/theirs/share/ptext/installed" ] && echo yes)"
    chmod -R u+w "$room/theirs"
else
    left_out "an installation without rights (there is no python3 that nobody can run)"
fi

[ "$bad" = 0 ] && echo "installed, run by each name, and taken away again"
[ "$bad" = 0 ]
