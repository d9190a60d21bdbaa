# make            build/libjingcobu.a, build/libjingcobu.so and build/jingcobu-desk. Needs the Rattle kit (rt) and gcc.
# make frames     answers the frames of examples/ and prints the answers. Needs the kit alone.
# make install    header, libraries, files for pkg-config and CMake, jingcobu-desk, jingcobu-parts, manual pages, and what Python and GP
#                 need, under PREFIX (and DESTDIR, for packages). make uninstall removes them.
# make gp         build/libjingcobu-gp.so, for PARI/GP. Needs libpari-dev too.
# make check      all tests of what C, Python, GP and shell users see. It first says what is missing (tests/missing), skips what needs it,
#                 and counts both at the end. If CI is set, what depends on the clock is left out.
# make figures    runs the scripts of tools/ that made stored files, and compares; those that take long with FIGURES=all.
# make dist       build/jingcobu-VERSION.tar.gz, the sources as they are committed, with CHANGELOG.md, which says what has changed. Needs
#                 git.
#
# The first number of VERSION is that of the shared library's interface: it changes when programs have to be rebuilt.
SHELL = bash -o pipefail
VERSION = 1.0.0
MAJOR = $(firstword $(subst ., ,$(VERSION)))
PREFIX ?= /usr/local
INCLUDEDIR ?= $(PREFIX)/include
LIBDIR ?= $(PREFIX)/lib
BINDIR ?= $(PREFIX)/bin
LIBEXECDIR ?= $(PREFIX)/libexec
DATADIR ?= $(PREFIX)/share
MANDIR ?= $(DATADIR)/man

# 1: every service of the header must be in the library, and every test is run. 0: tests of services that it lacks are skipped.
JINGCOBU_ALL ?= 1
export JINGCOBU_ALL

ROOT = .
ENGINE = crates/engine/out/libengine.a
DESK = crates/desk/out/desk
SONAME = libjingcobu.so.$(MAJOR)
SHARED = libjingcobu.so.$(VERSION)

all: build/libjingcobu.a build/libjingcobu.so build/jingcobu-desk build/jingcobu-parts

build/libjingcobu.a: $(ENGINE)
	@mkdir -p build
	cp $(ENGINE) $@

# Everything of the archive, but only the names of the header can be seen.
build/$(SHARED): $(ENGINE) tools/names.map
	@mkdir -p build
	gcc -shared -Wl,-soname,$(SONAME) -Wl,--version-script=tools/names.map -Wl,-z,defs -Wl,-z,relro,-z,now -o $@ \
	    -Wl,--whole-archive $(ENGINE) -Wl,--no-whole-archive

build/libjingcobu.so: build/$(SHARED)
	ln -sf $(SHARED) build/$(SONAME)
	ln -sf $(SONAME) $@

# The proved program, and beside it the shell program around it that users call.
build/jingcobu-desk.proved: $(DESK)
	@mkdir -p build
	cp $(DESK) $@

build/jingcobu-desk: tools/jingcobu-desk build/jingcobu-desk.proved Makefile
	sed -e 's|@VERSION@|$(VERSION)|' -e 's|@PROGRAM@||' tools/jingcobu-desk > $@.new
	chmod 755 $@.new
	mv $@.new $@

build/jingcobu-parts: tools/jingcobu-parts
	@mkdir -p build
	cp tools/jingcobu-parts $@

frames: build/jingcobu-desk
	@build/jingcobu-desk examples/frames

# Paths can have blanks: they reach the script in its environment.
install uninstall: export VERSION := $(VERSION)
install uninstall: export DESTDIR := $(DESTDIR)
install uninstall: export PREFIX := $(PREFIX)
install uninstall: export INCLUDEDIR := $(INCLUDEDIR)
install uninstall: export LIBDIR := $(LIBDIR)
install uninstall: export BINDIR := $(BINDIR)
install uninstall: export LIBEXECDIR := $(LIBEXECDIR)
install uninstall: export DATADIR := $(DATADIR)
install uninstall: export MANDIR := $(MANDIR)

# The GP functions too, if libpari-dev is installed.
GP_TOO := $(if $(filter libpari-dev,$(shell tests/missing)),,gp)
install: all $(GP_TOO)
	@tools/install put

uninstall:
	@tools/install remove

# The GP functions, with the engine inside. If not every service has to be there, a missing one fails when it is called.
gp: build/libjingcobu-gp.so
build/libjingcobu-gp.so: gp/jingcobu.c include/jingcobu.h build/libjingcobu.a
	gcc -O2 -Wall -Wextra -fPIC -shared -fvisibility=hidden -Iinclude -o $@ gp/jingcobu.c build/libjingcobu.a -Wl,--exclude-libs,ALL \
	    $(if $(filter 1,$(JINGCOBU_ALL)),-Wl$(comma)-z$(comma)defs) -lpari
comma = ,

# Every part, and how many passed and were skipped.
check:
	@+tests/check "$(MAKE)"

check-host:
	$(MAKE) -C tests

check-gate:
	tests/gate.sh

# their texts, their names in documents, and what tools/edits.py each found of them
check-edits:
	tests/edits.sh

check-examples:
	$(MAKE) -C examples

check-header: all
	tests/header.sh $(VERSION)

check-guard:
	$(MAKE) -C tests guard

check-threads:
	$(MAKE) -C tests threads

check-stack:
	$(MAKE) -C tests stack

# the proved program as it is, then what is installed around it
check-desk: build/jingcobu-desk
	python3 tests/desk.py $(DESK)
	tests/desk.sh $(VERSION)

check-parts: build/jingcobu-desk build/jingcobu-parts
	tests/parts.sh

check-install: all
	tests/install.sh $(VERSION)

check-python: all
	python/tests/run $(VERSION)

check-gp: gp
	gp/test

check-sage: all
	sage examples/resultants.sage | diff -u examples/resultants.expected -
	rm -f examples/*.sage.py

check-scaling: all
	tests/scaling.sh

check-readme: all $(GP_TOO)
	tests/readme.py

check-clauses:
	tests/clauses.sh

check-twins:
	tests/twins.sh

figures check-figures:
	python3 tests/figures.py $(FIGURES)

dist:
	@mkdir -p build
	git archive --format=tar --prefix=jingcobu-$(VERSION)/ HEAD | gzip -9n > build/jingcobu-$(VERSION).tar.gz
	@echo build/jingcobu-$(VERSION).tar.gz
	@if git cat-file -e HEAD:CHANGELOG.md 2> /dev/null; then echo "what has changed: jingcobu-$(VERSION)/CHANGELOG.md"; \
	    else echo "there is no CHANGELOG.md in it"; fi

clean:
	rm -rf build
	$(MAKE) -C tests clean
	$(MAKE) -C examples clean
	$(MAKE) -C bench clean

.PHONY: all frames install uninstall gp check check-gate check-edits check-host check-examples check-header check-guard check-threads check-stack \
    check-desk check-parts check-install check-python check-gp check-sage check-scaling check-readme check-clauses check-twins check-figures \
    figures dist clean
include tools/build.mk
