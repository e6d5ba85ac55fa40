# make                     the library target/lib/libhplog.a and the command target/bin/hplog
# make run                 the samples: listed, checked and recovered
# make check               a short test: what changed is proved again, programs, library and command are run
# make test                the whole gate
# make bench               each call beside a peer, and its stack: docs/performance-table.md, and a plot in
#                          docs/performance.svg
# make install PREFIX=..   command, header, library, hplog.pc and manual pages; DESTDIR=.. goes in front
#
# HPLOG_LIB=.. links the libhplog.a of that folder and builds none. LEVEL=x86-64 compiles the library for x86-64 alone,
# for a compiler or a C library that can't choose by the processor (levels/levels.c).

PREFIX ?= /usr/local
CC ?= cc
CFLAGS ?= -O2 -g
INSTALL ?= install

COMMAND_CFLAGS = -std=c11 -D_GNU_SOURCE -Wall -Wextra -Wpedantic -Werror -Iinclude
OBJECTS = $(patsubst command/%.c,target/command/%.o,$(wildcard command/*.c))
COMMAND = target/bin/hplog
VERSION = $(shell sed -n 's/^.define COMMAND_VERSION "\(.*\)"/\1/p' command/version.h)

ifdef HPLOG_LIB
LIBRARY = $(HPLOG_LIB)/libhplog.a
else
LIBRARY = target/lib/libhplog.a
endif

all: $(LIBRARY) $(COMMAND)

target/lib/libhplog.a: $(shell find crates -name out -prune -o -type f -print 2>/dev/null) crates.txt levels/levels.c
	CC="$(CC)" LEVEL=$(LEVEL) tools/make-library

$(COMMAND): $(OBJECTS) $(LIBRARY)
	@mkdir -p $(@D)
	$(CC) $(CFLAGS) $(LDFLAGS) $(OBJECTS) $(LIBRARY) -o $@

target/command/%.o: command/%.c include/hplog.h $(wildcard command/*.h)
	@mkdir -p $(@D)
	$(CC) $(COMMAND_CFLAGS) $(CPPFLAGS) $(CFLAGS) -c $< -o $@

run: all
	samples/run $(COMMAND)

check: all
	tools/check-claims
	tools/check-widths
	rt all test
	HPLOG_LIB=$(dir $(LIBRARY)) tests/run
	command/tests/run

test:
	bash .ci/run

bench: $(LIBRARY)
	HPLOG_LIB=$(dir $(LIBRARY)) tests/bench docs/performance.svg docs/performance-table.md

install: all
	@mkdir -p target
	sed -e 's|@PREFIX@|$(PREFIX)|' -e 's|@VERSION@|$(VERSION)|' command/hplog.pc.in > target/hplog.pc
	$(INSTALL) -D -m 755 $(COMMAND) $(DESTDIR)$(PREFIX)/bin/hplog
	$(INSTALL) -D -m 644 include/hplog.h $(DESTDIR)$(PREFIX)/include/hplog.h
	$(INSTALL) -D -m 644 $(LIBRARY) $(DESTDIR)$(PREFIX)/lib/libhplog.a
	$(INSTALL) -D -m 644 target/hplog.pc $(DESTDIR)$(PREFIX)/lib/pkgconfig/hplog.pc
	$(INSTALL) -D -m 644 man/hplog.1 $(DESTDIR)$(PREFIX)/share/man/man1/hplog.1
	$(INSTALL) -D -m 644 man/hplog.3 $(DESTDIR)$(PREFIX)/share/man/man3/hplog.3

.PHONY: all run check test bench install
