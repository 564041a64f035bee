#!/bin/sh
# Tests `make dist` and `make deb`: twice the same bytes; archives with all their parts, which are refused if something
# is not committed; an installation from the archive, by the commands that it names; and, if there are dpkg and
# debhelper, Debian packages that install, run and are removed again, below a folder of their own, and a source package.
# If there is lintian, its report on the packages is shown. In the unpacked source it also tests that `make check` says
# why it cannot run. Nothing is proved.
# usage: tests/packages.sh (the program is built; WITHOUT_PACKAGES=yes leaves out the Debian packages)
set -u
top=$(cd "$(dirname "$0")/.." && pwd)
version=$(cat "$top/VERSION")
. "$top/tests/common.sh"
# (Root's PATH lacks these here and there, and dpkg wants them.)
PATH=$PATH:/usr/local/sbin:/usr/sbin:/sbin

# same NAME FILE FILE: that two files have the same bytes
same() {
    is "$1" same "$(cmp -s "$2" "$3" && echo same)"
}

# refused FOLDER WORDS..: what a make that has to fail says in a folder, without what make itself adds
refused() {
    folder=$1
    shift
    make -s -C "$folder" "$@" >"$room/said" 2>&1 && echo "it did not fail"
    grep -v '^make' "$room/said"
}

dist() {
    python3 "$top/tools/dist.py" archives "$1" --changed
}

dist "$room/one" >"$room/said"
(umask 077 && cd / && dist "$room/two" >"$room/said")
# (There is one of the program for each processor for which it is built.)
programs=$(for name in x86_64 aarch64; do
    at=${name#x86_64}
    [ ! -e "$top/build/${at:+$at/}ptext" ] || echo "ptext-$version-linux-$name.tar.gz"
done)
for file in "ptext-$version.tar.gz" $programs SHA256SUMS; do
    same "$file, made twice" "$room/one/$file" "$room/two/$file"
done
is "checksums" "" "$(cd "$room/one" && sha256sum --quiet -c SHA256SUMS 2>&1)"
is "files that others can read" 644 "$(stat -c %a "$room"/two/* | uniq)"
is "nothing else is made" "$(echo SHA256SUMS $(printf '%s\n' $programs | LC_ALL=C sort) ptext-$version.tar.gz)" \
    "$(echo $(ls -A "$room/one" | LC_ALL=C sort))"

mkdir "$room/source" "$room/program"
tar -xzf "$room/one/ptext-$version.tar.gz" -C "$room/source" --strip-components=1
tar -xzf "$room/one/ptext-$version-linux-x86_64.tar.gz" -C "$room/program" --strip-components=1
commit=$(cat "$room/program/COMMIT")
is "what is said" \
    "made $room/two/ptext-$version.tar.gz$(printf ', %s' $programs) and SHA256SUMS, of commit $commit" \
    "$(cat "$room/said")"
if [ -e "$top/.git" ] && command -v git >/dev/null; then
    is "the commit" "$(git -c safe.directory="$top" -C "$top" rev-parse HEAD)" "${commit% changed}"
fi
is "the source has its parts" yes \
    "$(cd "$room/source" && [ -s Makefile ] && [ -s crates.txt ] && [ -s crates/ptext/src/main.rt ] && echo yes)"
if [ -e "$top/.git" ] && command -v git >/dev/null; then
    is "what can be run" "$(git -c safe.directory="$top" -C "$top" ls-files -s | sed -n 's/^100755 .*\t//p' | sort)" \
        "$(cd "$room/source" && find . -type f -perm -100 | sed 's|^\./||' | sort)"
fi
is "the source has nothing that was built" "" \
    "$(cd "$room/source" && find . -name '*.rlib' -o -name build -o -name .git)"
for folder in source program; do
    is "checksums of each file of the $folder" "" "$(cd "$room/$folder" && sha256sum --quiet -c SHA256SUMS 2>&1)"
    is "each file of the $folder has one" "$(cd "$room/$folder" && find . -type f ! -name SHA256SUMS | wc -l)" \
        "$(wc -l <"$room/$folder/SHA256SUMS")"
done
is "its parts" "CHANGELOG.md COMMIT CONTRIBUTING.md INSTALL.md LICENSE-APACHE LICENSE-MIT NOTICES README.md SHA256SUMS \
bench bin docs libexec share " "$(ls "$room/program" | LC_ALL=C sort | tr '\n' ' ')"
for page in $(grep -o '\(docs\|bench\)/[A-Za-z]*[.][a-z]*' "$room/program/README.md" | sort -u); do
    is "$page, which its README names" yes "$([ -s "$room/program/$page" ] && echo yes)"
done
for library in memchr arrayvec itoa core std std_alloc std_io; do
    is "NOTICES names $library" yes "$(grep -q "rattle/$library/" "$room/program/NOTICES" && echo yes)"
done
# Each library that a crate uses is named too, and the license in NOTICES is that of the library in the toolchain.
words() {
    tr -s '[:space:].' ' '
}
terms=$(sed -n '/^ Permission/,/^$/p' "$room/program/NOTICES" | words)
kit=$(dirname "$(dirname "$(readlink -f "$(command -v rt || echo /opt/rattle/bin/rt)")")")
for library in $(sed -n 's/^pt[a-z]*: *//p' "$top/crates.txt" | tr ' ' '\n' | grep -v '^pt' | sort -u); do
    is "NOTICES names $library" yes "$(grep -q "rattle/$library/" "$room/program/NOTICES" && echo yes)"
    for file in LICENSE-MIT LICENSE; do
        [ -f "$kit/rattle/$library/$file" ] || continue
        is "the license of $library" "$terms" " $(sed -n '/^Permission/,$p' "$kit/rattle/$library/$file" | words)"
        break
    done
done

# The archive has the static program, if it was linked with musl: one with the GNU C library would have to come with what
# links it anew. So have the tools by their own names.
if [ "$(cat "$top/build/ptext-static.libc" 2>/dev/null)" = musl ]; then
    same "its program" "$room/program/bin/ptext" "$top/build/ptext-static"
    same "its tools" "$room/program/libexec/ptext/tool" "$top/build/ptext-by-name-static"
    is "they need no shared libraries" "" "$(readelf -lW "$room/program/bin/ptext" "$room/program/libexec/ptext/tool" |
        grep INTERP)"
    is "NOTICES name their C library" yes "$(grep -q 'the C library musl' "$room/program/NOTICES" && echo yes)"
else
    left_out "the archive with a static program (musl-tools is not there, or make static was not run)"
fi
# Without what a C compiler linked, it has the program of the toolchain, and scripts.
mkdir -p "$room/source/build" "$room/scripts"
cp "$top/build/ptext" "$room/source/build"
python3 "$room/source/tools/dist.py" archives "$room/of.scripts" >"$room/said" 2>&1 || cat "$room/said"
rm -r "$room/source/build"
tar -xzf "$room/of.scripts/ptext-$version-linux-x86_64.tar.gz" -C "$room/scripts" --strip-components=1
is "a tool as a script" '1 a' "$(echo a | "$room/scripts/libexec/ptext/bin/uniq" -c)"
ln -s "$room/scripts/libexec/ptext/bin/uniq" "$room/script.link"
is "and through a link" '1 b' "$(echo b | "$room/script.link" -c)"
is "it is a script" '#!/bin/sh' "$(head -n 1 "$room/scripts/libexec/ptext/bin/uniq")"

# The commands of INSTALL.md.
lines() {
    sed -n 's/^    //p' "$room/program/INSTALL.md" | grep "$1"
}
mkdir "$room/home"
(cd "$room/program" && export HOME="$room/home" && eval "$(lines '^mkdir\|^cp')")
local=$room/home/.local
is "the program of the archive" acd "$(echo abcd | "$local/bin/ptext" cut -c 3-,1)"
is "a tool of the archive by its own name" '1 a' "$(echo a | PATH=$local/libexec/ptext/bin:$PATH uniq -c)"
ln -s "$local/libexec/ptext/bin/cut" "$room/home/cut"
is "and through a link" b "$(echo ab | "$room/home/cut" -c 2)"
is "all tools of the archive" "comm cut join paste tr uniq " "$(ls "$local/libexec/ptext/bin" | tr '\n' ' ')"
case $commit in
    unknown*) made= ;;
    *' changed') made=+$(expr "$commit" : '\(........\)').changed ;;
    *) made=+$(expr "$commit" : '\(........\)') ;;
esac
for page in share/man/man1/ptext.1 libexec/ptext/man/man1/cut.1; do
    is "the commit in $page" ".Os ptext $version$made" "$(grep '^[.]Os' "$local/$page")"
    if manpath --version 2>/dev/null | grep -q ^manpath; then
        is "the last line of $page, without the date" "ptext $version$made ptext $version$made" \
            "$(MANWIDTH=80 man -l "$local/$page" | tail -n 1 | sed 's/  *[A-Z][a-z]* [0-9]*, 20[0-9]*  */ /')"
    fi
done
is "the script of the archive" yes "$([ -x "$local/share/ptext/ptext-slurm.sh" ] && echo yes)"
is "ptext-parts of the archive" "[[0, 2]]" \
    "$(echo a >"$room/line" && PATH=$local/bin:$PATH ptext-parts plan 1 cut -c 1 "$room/line" | sed -n 2p)"
is "the page of section 7" yes "$([ -s "$local/share/man/man7/ptext-replacing.7" ] && echo yes)"
is "the file that bash reads" yes "$([ -s "$local/$(lines '^[.] ' | sed 's/.*[.]local.//')" ] && echo yes)"
(export HOME="$room/home" && eval "$(lines '^cd ')")
is "nothing is left of the archive" "" "$(find "$local" ! -type d; find "$local" -name 'ptext*')"

# An archive of the unpacked source is the same archive, also after dpkg-buildpackage was called there; one of a source
# that is changed is refused.
mkdir "$room/source/build" && cp "$top/build/ptext" "$room/source/build"
mkdir "$room/source/debian/tmp" && ln -s nothing "$room/source/debian/tmp/link" && : >"$room/source/debian/files"
mkdir "$room/source/crates/ptrun/out" && : >"$room/source/crates/ptrun/out/kept"
again() {
    python3 "$room/source/tools/dist.py" archives "$room/three" "$@" 2>&1
}
again >"$room/said"
same "an archive of the archive" "$room/one/ptext-$version.tar.gz" "$room/three/ptext-$version.tar.gz"
rm -r "$room/three" "$room/source/debian/tmp" "$room/source/debian/files" "$room/source/crates/ptrun/out"
(SOURCE_DATE_EPOCH=86400 && export SOURCE_DATE_EPOCH && again >"$room/said")
is "the time that is given" 1970-01-02 \
    "$(TZ=UTC tar -tvzf "$room/three/ptext-$version.tar.gz" | tr -s ' ' | cut -d ' ' -f 4 | sort -u)"
rm -r "$room/three"
echo >>"$room/source/README.md"
: >"$room/source/docs/new.md"
uncommitted() {
    echo "$1. $2(\`make dist CHANGED=yes\` makes the archives all the same, and they say so.) No archive was made."
}
is "one of a changed archive" \
    "$(uncommitted 'not as in the archive of the source: README.md, docs/new.md' '')" "$(again)"
commit_said() {
    tar -xzOf "$room/three/ptext-$version-linux-x86_64.tar.gz" "ptext-$version-linux-x86_64/$1"
}
again --changed >"$room/said"
is "the commit of a changed archive" "${commit% changed} changed" "$(commit_said COMMIT)"
made=${made:+${made%.changed}.changed}
is "and in a page" ".Os ptext $version$made" "$(commit_said share/man/man1/ptext.1 | grep '^[.]Os')"
rm -r "$room/three"
make -s -C "$room/source" PTEXT_AS_BUILT=yes install PREFIX="$room/four" DESTDIR= >"$room/said" 2>&1
is "and in an installed page" ".Os ptext $version$made" "$(grep '^[.]Os' "$room/four/share/man/man1/ptext.1")"
is "nothing is left of it" "" "$(ls -d "$room/three" 2>&1 | grep -v 'No such')"
# If a file is in the way, or if there is no room, nothing is made.
: >"$room/three"
is "a file in the way" "cannot write $room/three: File exists. Nothing was made." "$(dist "$room/three" 2>&1)"
rm "$room/three"
is "no room" "cannot write $room/three: File too large. Nothing was made." \
    "$(ulimit -f 8 && dist "$room/three" 2>&1 | sed "s|write /[^:]*:|write $room/three:|; s|^strip: .*||; /^\$/d")"
is "a time that is none" "SOURCE_DATE_EPOCH is no number of seconds: now. Nothing was made." \
    "$(SOURCE_DATE_EPOCH=now && export SOURCE_DATE_EPOCH && dist "$room/three" 2>&1)"
is "nothing is left of them" "" "$(ls -Ad "$room"/.ptext-* "$room/three" 2>/dev/null)"

if command -v git >/dev/null; then
    (cd "$room/source" && git init -q && git add -A && git -c user.name=a -c user.email=a@b.c commit -qm one) \
        >"$room/said" 2>&1
    again >"$room/said"
    is "the commit of a checkout" "$(git -C "$room/source" rev-parse HEAD)" \
        "$(tar -xzOf "$room/three/ptext-$version.tar.gz" "ptext-$version/COMMIT")"
    rm -r "$room/three"
    touch "$room/source/build/ptext"
    echo >>"$room/source/docs/new.md"
    : >"$room/source/docs/newer.md"
    is "what is not committed" "$(uncommitted 'not committed: docs/new.md, docs/newer.md' 'Commit first. ')" \
        "$(refused "$room/source" dist)"
    is "nothing is left of it" ptext "$(ls -A "$room/source/build")"
else
    left_out "archives of a checkout (there is no git)"
    mkdir "$room/source/.git"
fi
# Without git, without the tools of the packages, and without the toolchain: one line, and nothing is left behind.
mkdir "$room/few"
for program in make sh python3 id find strip; do
    found=$(command -v $program)
    [ $program = python3 ] && found=$(python3 -c 'import sys; print(sys.executable)')
    [ -n "$found" ] && ln -s "$found" "$room/few/$program"
done
few() {
    (unset PTEXT_AS_BUILT; PATH=$room/few && export PATH && make -s -C "$room/source" "$1" 2>&1) | grep -v '^make'
}
is "no git" "cannot tell which commit this is: it is no checkout with git, and no unpacked archive of the source. \
(\`make dist CHANGED=yes\` makes the archives all the same.) No archive was made." "$(few dist)"
is "no dpkg-buildpackage" "there is no dpkg-buildpackage, which the Debian package dpkg-dev has. No package was made." \
    "$(few deb)"
is "nothing is left of both" ptext "$(ls -A "$room/source/build")"
rm -r "$room/source/build"
for target in dist deb check; do
    is "no toolchain for $target" 1 "$(few $target | grep -c '^there is no rt in PATH: ')"
    is "and nothing else is said" 1 "$(few $target | wc -l)"
done
is "nothing is left of them" "" "$(ls -Ad "$room/source/build" 2>/dev/null)"
# A check that cannot know what changed says why, before it calls rt.
: >"$room/few/rt"
chmod +x "$room/few/rt"
is "no git for check" "there is no git in PATH, which knows what changed: run make test, which proves all" "$(few check)"
if command -v git >/dev/null; then
    ln -s "$(command -v git)" "$room/few/git"
    rm -rf "$room/source/.git"
    is "no clone for check" "this folder is no clone, so git does not know what changed: run make test, which proves all" \
        "$(few check)"
fi

if [ "${WITHOUT_PACKAGES:-}" ]; then
    echo "left out: the Debian packages (WITHOUT_PACKAGES)"
elif command -v dpkg-buildpackage >/dev/null && command -v dh >/dev/null; then
    DEB_BUILD_OPTIONS=nocheck
    export DEB_BUILD_OPTIONS
    python3 "$top/tools/dist.py" deb "$room/one" >"$room/said.one" 2>&1 &
    mkdir "$room/a b"
    (umask 077 && cd / && TMPDIR="$room/a b" python3 "$top/tools/dist.py" deb "$room/two") >"$room/said" 2>&1
    wait $! || { cat "$room/said.one"; echo "FAILED: make deb, so its packages are not looked into"; exit 1; }
    deb=ptext_$version-1_amd64.deb tools=ptext-tools_$version-1_amd64.deb
    list=ptext_$version-1_amd64
    is "what it says" "made in $room/two: $tools, $list.buildinfo, $list.changes, $deb" "$(cat "$room/said")"
    for file in "$deb" "$tools"; do
        same "$file, made twice" "$room/one/$file" "$room/two/$file"
        is "its version" "$version-1" "$(dpkg-deb -f "$room/one/$file" Version)"
    done
    if command -v dpkg >/dev/null && [ "$(id -u)" = 0 ]; then
        # Into a folder with a list of packages of its own; --force-depends, as that list has no C library.
        mkdir -p "$room/root/var/lib/dpkg/updates" "$room/root/var/lib/dpkg/info"
        : >"$room/root/var/lib/dpkg/status"
        # (Images of small systems leave pages out; here all is installed.)
        into() {
            dpkg --root="$room/root" --path-include='/*' --log=/dev/null --force-depends --force-script-chrootless \
                "$@" >"$room/said" 2>&1 || { cat "$room/said"; bad=$((bad + 1)); }
        }
        into -i "$room/one/$deb" "$room/one/$tools"
        usr=$room/root/usr
        is "the program of the package" acd "$(echo abcd | "$usr/bin/ptext" cut -c 3-,1)"
        if command -v readelf >/dev/null; then
            is "it is stripped" "" "$(readelf -S "$usr/bin/ptext" | grep -F .symtab)"
        fi
        is "its tools by name" '1 a' "$(echo a | "$usr/libexec/ptext/bin/uniq" -c)"
        is "they are stripped" "" "$(readelf -S "$usr/libexec/ptext/tool" | grep -F .symtab)"
        for name in cut paste join comm uniq tr; do
            same "the page of $name" "$usr/libexec/ptext/man/man1/$name.1.gz" "$usr/share/man/man1/ptext-$name.1.gz"
            is "$name in fish" yes "$([ -s "$usr/share/fish/vendor_completions.d/$name.fish" ] && echo yes)"
        done
        about=$usr/share/doc/ptext
        for page in README.md NOTICES $(grep -o '\(docs\|bench\)/[A-Za-z]*[.][a-z]*' "$about/README.md" | sort -u); do
            is "$page, to read in the package" yes "$([ -s "$about/$page" ] && echo yes)"
        done
        same "its copyright" "$about/copyright" "$top/debian/copyright"
        is "its pages" 8 "$(ls "$usr/share/man/man1" | grep -c '^ptext.*\.1\.gz$')"
        is "its page of section 7" ptext-replacing.7.gz "$(ls "$usr/share/man/man7")"
        is "its script" yes "$([ -x "$usr/share/ptext/ptext-slurm.sh" ] && echo yes)"
        is "its ptext-parts" yes "$([ -x "$usr/bin/ptext-parts" ] && echo yes)"
        is "completion in bash" "ptext ptext-parts ptext-tools " "$(ls "$usr/share/bash-completion/completions" | tr '\n' ' ')"
        is "completion in zsh" "_ptext _ptext_tools " "$(ls "$usr/share/zsh/vendor-completions" | tr '\n' ' ')"
        into -P ptext-tools ptext
        is "nothing is left of the packages" "" "$(find "$room/root" -name '*ptext*')"
    else
        left_out "the installation of the packages (it takes dpkg, and root)"
    fi
    # The source package: the archive of the source, beside which a program was built and checks were made.
    mkdir "$room/of.source"
    tar -xzf "$room/one/ptext-$version.tar.gz" -C "$room/of.source"
    cp "$room/one/ptext-$version.tar.gz" "$room/of.source/ptext_$version.orig.tar.gz"
    tree=$room/of.source/ptext-$version
    mkdir "$tree/build" "$tree/crates/ptrun/out"
    cp "$top/build/ptext" "$tree/build"
    cp "$top/build/ptext" "$tree/crates/ptrun/out/kept"
    (cd "$tree" && dpkg-buildpackage -us -uc -S -d) >"$room/said" 2>&1 || { cat "$room/said"; bad=$((bad + 1)); }
    is "a source package" "ptext_$version-1.dsc" "$(cd "$room/of.source" && ls ./*.dsc | sed 's|^\./||')"
    is "nothing that was built is in it" "" \
        "$(tar -tf "$room/of.source/ptext_$version-1.debian.tar.xz" | grep -v '/$' | grep 'patches\|build/\|out/')"
    if command -v lintian >/dev/null; then
        # (debian/*.lintian-overrides and debian/source/lintian-overrides have its other findings, with the reasons.
        # Another version of lintian may find more, so this is shown and not counted.)
        for changes in "$room/one/$list.changes" "$room/of.source/ptext_$version-1_source.changes"; do
            lintian --fail-on none -I "$changes" 2>/dev/null | grep '^[EWI]:'
        done
    else
        left_out "what lintian says of the packages (there is no lintian)"
    fi
else
    left_out "the Debian packages (there is no dpkg-buildpackage, or no debhelper)"
fi

[ "$bad" = 0 ] && echo "archives and packages: made twice, looked into, installed and taken away"
[ "$bad" = 0 ]
