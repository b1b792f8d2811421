# The library for C: proved, built, installed and tried.
#   make lib       target/lib/librcmonitor.a: proves all of it first, with the Rattle toolchain (minutes the first time)
#   make shared    the same as librcmonitor.so, for languages that load their libraries
#   make install   header, archive and pkg-config file below PREFIX (/usr/local), with DESTDIR before it where that is set
#   make example   builds and runs examples/, and compares what they print
#   make test      tests/run: the same, and the library beside a plain C version of the monitor, on many calls
# The library is for x86-64: elsewhere CC is a compiler for that, and EMULATE what its programs are run with.
PREFIX ?= /usr/local
CFLAGS ?= -std=c11 -O2 -Wall -Wextra -Werror
OUT := target/lib
ARCHIVE := $(OUT)/librcmonitor.a
SHARED := $(OUT)/librcmonitor.so
# What rt makes lies in the folders out/.
SOURCES := crates.txt $(shell find crates -name out -prune -o \( -name '*.rt' -o -name '*.antt' \) -print)
# The package's version is the layout's: who keeps rows asks for that.
VERSION := $(shell sed -n 's/^.define RC_LAYOUT_VERSION //p' include/monitor.h)
# Only a Python for x86-64 can load the library.
PYTHON := $(if $(filter x86_64,$(shell uname -m)),$(shell command -v python3))
RAN := $(OUT)/embed.stdout $(if $(PYTHON),$(OUT)/load.stdout)

.PHONY: lib shared install example test
.DELETE_ON_ERROR:

lib: $(ARCHIVE)

shared: $(SHARED)

$(ARCHIVE): $(SOURCES)
	@command -v rt > /dev/null || { echo 'the Rattle toolchain is not there (no rt on the PATH), so the library cannot be proved' >&2; exit 2; }
	@echo 'proving and building the library: minutes the first time, then only what has changed'
	@mkdir -p $(OUT)
	@(cd crates/clib && rt lib) > $(OUT)/log 2>&1 || { echo 'not proved, or not built; what the tools said is in $(OUT)/log' >&2; exit 1; }
	cp crates/clib/out/libclib.a $@

$(SHARED): $(ARCHIVE)
	$(CC) -shared -Wl,--whole-archive $< -Wl,--no-whole-archive -o $@

install: $(ARCHIVE)
	sed -e 's|@PREFIX@|$(PREFIX)|' -e 's|@VERSION@|$(VERSION)|' include/rcmonitor.pc.in > $(OUT)/rcmonitor.pc
	install -D -m 644 include/monitor.h $(DESTDIR)$(PREFIX)/include/rcmonitor/monitor.h
	install -D -m 644 $(ARCHIVE) $(DESTDIR)$(PREFIX)/lib/librcmonitor.a
	install -D -m 644 $(OUT)/rcmonitor.pc $(DESTDIR)$(PREFIX)/lib/pkgconfig/rcmonitor.pc

$(OUT)/embed: examples/embed.c include/monitor.h $(ARCHIVE)
	$(CC) $(CFLAGS) $(if $(EMULATE),-static) -Iinclude $< $(ARCHIVE) -o $@

$(OUT)/embed.stdout: $(OUT)/embed
	$(EMULATE) $< > $@

$(OUT)/load.stdout: examples/load.py $(SHARED)
	$(PYTHON) $^ > $@

example: $(RAN)
	@for ran in $(RAN); do cat $$ran; diff $$ran examples/$${ran##*/} || exit 1; done
	@$(if $(PYTHON),,echo 'no Python for x86-64 here: examples/load.py was not run')

test:
	tests/run
