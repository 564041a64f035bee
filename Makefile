# make                      proves the program and its libraries, and builds build/ptext
# make try WORDS='cut -c 1' compiles the program and runs it on standard input, in a minute: nothing is proved
# make check                while working: proves what changed since SINCE, what uses it, its tests, and the wrong bodies
#                           of the changed crates (SINCE=COMMIT; origin/main where it is known, else HEAD~1)
# make test                 the gate: every proof, most wrong bodies, all tests; then all tests of the program, the
#                           static one, the library, the Python module and the page, which are built from what it
#                           proved (needs gcc and libc6-dev). It names what it leaves out
# make must-fail            tries the wrong bodies that the gate leaves out: before a release
# make check-program        all tests of a built program (PROGRAM=build/ptext): nothing is proved, and no toolchain needed
# make static               build/ptext-static: the program as one file that needs no shared libraries, with musl where
#                           it is (Debian's musl-tools) or LIBC=glibc, and build/ptext-by-name: the tools by their own
#                           names. `make` links them too, where there is gcc
# make second               build/ptext-second: the program by the toolchain's second compiler, which tests compare with
#                           build/ptext
# make lib                  build/libptext.so and build/libptext.a with ptext.h: the tools as a library, for C; where
#                           musl is, in build/musl too
# make install-lib          installs them and the page ptext(3) into PREFIX
# make python               build/dist: a wheel of the Python module, with the library in it (docs/LIBRARY.md); with
#                           LIBC=musl, that for Alpine and its like
# make page                 build/page/ptext.html: the tools in a browser, as one file; build/node: a package for node
# make node                 build/dist: that package as an archive, which npm install takes (docs/LIBRARY.md)
# make onefile              build/dist: the program as one file in C, for any machine with a compiler
# make bench                ratios to the system's tools, by tool, work and length of a line: tables, data and chart in
#                           bench/; and the tools over parts of their input, on all processors
# make compare N=5000       random words and inputs, against the definitions and the system's tools; AGAINST=busybox,
#                           toybox, uutils, 9base, all, or a path, compares with others (docs/POSIX.md)
# make definitions N=500    has the prover compute the definitions on random words and inputs, and compares the results
#                           with a model in Python, the system's tools, and the built program if there is one
# make docs                 writes docs/PROMISE.md, the page of the definitions, from crates/*/specs
# make install PREFIX=..    installs the program, its pages and completion into PREFIX (/usr/local), below DESTDIR
#                           (build/ptext-static if it was linked of build/ptext as it is, unless STATIC=no)
# make install-tools        adds PREFIX/libexec/ptext/bin with each tool by its own name, a folder to put into PATH
# make uninstall PREFIX=..  takes away exactly what these two and install-lib installed
# make dist                 build/dist: an archive of the source, one of the program (the static one with musl, if it was
#                           linked), and their checksums. All has to be committed; with CHANGED=yes the archives are
#                           made all the same, and say so
# make deb                  build/dist: the Debian packages ptext and ptext-tools, by dpkg-buildpackage and debhelper. It
#                           tests the program first (with DEB_BUILD_OPTIONS=nocheck it does not)
# make TARGET=aarch64       the program for ARM64, in build/aarch64, from the same proofs (docs/PROVED.md), by Debian's
#                           gcc-aarch64-linux-gnu. static, lib, python, dist and deb take it too
# make clean                removes all that was built, and what checks kept
# make help                 prints these lines

# (prefix, as other projects write it, is the same. So are the names of the folders.)
prefix ?= /usr/local
PREFIX ?= $(prefix)
bindir = $(PREFIX)/bin
libexecdir = $(PREFIX)/libexec
libdir = $(PREFIX)/lib
includedir = $(PREFIX)/include
datadir = $(PREFIX)/share
mandir = $(datadir)/man
# The command that installs the program, as `install`. Without one it is stripped, if there is strip.
INSTALL_PROGRAM =
# With `no`, build/ptext is installed even if there is a build/ptext-static.
STATIC =
INSTALL_TO = "$(PREFIX)" "$(DESTDIR)" bindir="$(bindir)" libexecdir="$(libexecdir)" datadir="$(datadir)" \
    mandir="$(mandir)" libdir="$(libdir)" includedir="$(includedir)" INSTALL_PROGRAM="$(INSTALL_PROGRAM)" \
    STATIC="$(STATIC)"
N ?= 1000
PROGRAM ?= build/ptext
# The files from which the program and the library are built.
SOURCES := HANDLES crates.txt $(shell find crates -name out -prune -o -name 'must-fail*' -prune -o -type f -print)
BUILDER := tools/project.py $(wildcard tools/builder/*.py)
# The processor for which the program, the library, wheels, archives and packages are made, x86_64 or aarch64; and the C
# library of the static program, musl or glibc. Without one it is musl, if it is there.
TARGET = x86_64
LIBC =
ifeq ($(TARGET),x86_64)
# What is built for it is put here, and this is the program that all else waits for.
BUILT := build
BASE := build/ptext
else ifeq ($(TARGET),aarch64)
BUILT := build/aarch64
BASE := build/aarch64/ptext-static
else
$(error TARGET is x86_64 or aarch64, and not $(TARGET))
endif
WITH_RT = command -v rt >/dev/null || { echo 'there is no rt in PATH: it is part of the toolchain, of which the README \
    says what can be had without it (if it is unpacked: export PATH=/opt/rattle/bin:$$PATH)' >&2; exit 1; }
AGAINST ?= system

# (No rules of make itself: one would link build/ptext of build/ptext.o.)
.SUFFIXES:

.PHONY: all try check must-fail check-program test static second lib install-lib python page node onefile bench \
    compare definitions docs install is-built install-tools uninstall dist deb clean help

all: $(BASE)
ifeq ($(TARGET),x86_64)
	@echo '$$ echo abcd | build/ptext cut -c 3-,1' && echo abcd | build/ptext cut -c 3-,1
	@echo 'next: make check-program (all its tests, nothing is proved), or make install PREFIX=$$HOME/.local'
endif

# (The tests of a built program take build/ptext as it is.)
ifndef PTEXT_AS_BUILT
build/ptext: $(SOURCES) tools/builder/compiling.py
	python3 tools/builder program
endif

check:
	python3 tools/check.py $(SINCE)

must-fail:
	@$(WITH_RT)
	sh tests/must_fail.sh

# The program runs in a folder of its own. The last lines that the toolchain adds to its messages are left out.
try:
	@$(if $(WORDS),:,echo "which words? make try WORDS='cut -c 3-,1'" >&2; exit 1)
	@$(WITH_RT)
	@mkdir -p build && echo 'compiling the program, which takes about a minute; nothing is proved (it finds' \
	    'files by their absolute names only, and writes at most 1 MiB)' >&2
	@cd crates/ptext && rt try -- $(WORDS) 2>../../build/try.log; status=$$?; \
	    grep -v '^checked: ended\|^run=ended' ../../build/try.log >&2; exit $$status

test:
	@$(WITH_RT)
	sh tests/all.sh

check-program:
	@test -x $(PROGRAM) || { echo "there is no $(PROGRAM): run 'make' first, or give PROGRAM=PATH" >&2; exit 1; }
	sh tests/built.sh $(PROGRAM)

static: $(BUILT)/ptext-static

NATIVE := $(wildcard native/*.c)
$(BUILT)/ptext-static: $(filter build/ptext,$(BASE)) $(SOURCES) $(BUILDER) $(NATIVE) $(if $(LIBC),as-asked)
	python3 tools/builder static $(TARGET) $(LIBC)

.PHONY: as-asked
as-asked:

lib: $(BUILT)/libptext.a

# (The tests take these as they are, too.)
ifndef PTEXT_AS_BUILT
$(BUILT)/libptext.a: $(wildcard bindings/c/*.[ch]) $(NATIVE) $(BUILDER) $(SOURCES)
	@$(WITH_RT)
	python3 tools/builder library $(TARGET)

build/ptext-second: build/ptext $(BUILDER) $(NATIVE)
	@$(WITH_RT)
	python3 tools/builder second
endif

second: build/ptext-second

install-lib: build/libptext.a
	@python3 tools/install.py library $(INSTALL_TO)

# (The modules of Debian's packages python3-setuptools and python3-wheel are those of its own Python.)
PYTHON ?= /usr/bin/python3
# (In build/dist is one wheel for a processor and a C library, manylinux or musllinux, of any version.)
WHEEL := build/dist/ptext-*$(if $(filter musl,$(LIBC)),l,[-y])linux_*$(TARGET).whl
python: $(BUILT)/libptext.a
	rm -rf build/python && cp -r bindings/python build/python
	rm -rf build/python/tests
	cp $(BUILT)$(if $(filter musl,$(LIBC)),/musl)/libptext.so.$(shell cat VERSION) build/python/ptext/libptext.so
	cp docs/LIBRARY.md LICENSE-MIT LICENSE-APACHE build/python && cp debian/copyright build/python/NOTICES
	rm -f $(WHEEL)
	@# (setuptools warns of `setup.py install`, which this runs for a folder that goes into the wheel.)
	cd build/python && PTEXT_MACHINE=$(TARGET) $(PYTHON) -W ignore setup.py -q bdist_wheel -d ../dist
	@python3 tools/dist.py sums build/dist
	@echo "built $$(echo $(WHEEL)), which pip install takes"

page: build/page/ptext.html

LICENSES := LICENSE-MIT LICENSE-APACHE debian/copyright
build/page/ptext.html: $(BUILDER) $(wildcard bindings/page/*.* bindings/node/*.* man/ptext-*.1) docs/LIBRARY.md VERSION $(LICENSES) $(SOURCES)
	@$(WITH_RT)
	python3 tools/builder page

node: build/page/ptext.html
	@python3 tools/dist.py node build/dist

onefile: build/onefile/ptext.c
	@python3 tools/dist.py onefile build/dist

build/onefile/ptext.c: build/page/ptext.html $(wildcard bindings/onefile/*.*)
	python3 tools/builder onefile

bench: build/ptext
	python3 bench/run.py build/ptext
	python3 bench/parts.py build/ptext

compare: build/ptext
	python3 tools/compare build/ptext $(N) --against "$(AGAINST)"

definitions:
	@$(WITH_RT)
	python3 tools/definitions $(N) $(if $(wildcard $(PROGRAM)),--program $(PROGRAM))

docs:
	python3 tools/promise.py

# As root no proof begins on the way: the program has to be there, and newer than its source.
install: $(if $(filter 0,$(shell id -u)),is-built,build/ptext)
	@python3 tools/install.py install $(INSTALL_TO)

is-built:
	@{ [ -x build/ptext ] && { [ "$(PTEXT_AS_BUILT)" ] || $(MAKE) -s -q build/ptext; }; } || { \
	    echo "build/ptext is not there, or older than its source. Run 'make' first, best not as root: it proves the" \
	        "program, which takes half an hour. Nothing was installed." >&2; exit 1; }

install-tools: install
	@python3 tools/install.py tools $(INSTALL_TO)

uninstall:
	@python3 tools/install.py uninstall $(INSTALL_TO)

dist: $(BASE)
	@python3 tools/dist.py archives build/dist $(TARGET) $(if $(CHANGED),--changed)

deb: $(BASE)
	@python3 tools/dist.py deb build/dist $(TARGET)

clean:
	rm -rf build crates/*/out

help:
	@sed -n '/^#/!q; s/^# //p' Makefile
