# A route table for small gateways, proved. What there is:
#
#   make run                       proves and builds the text program and runs it on standard input
#   make test                      every test; its last line is the verdict, 'N passed, 0 failed'
#   make lib                       the proved library for C: target/staticlib/libgateway.a
#   make examples                  C programs: target/forward forwards by a table, target/neighbour applies a
#                                  neighbour's messages, target/fill fills a table from dumps, target/replay
#                                  replays recorded days, in target/shared two parties share a table, and
#                                  target/differences tells which routes differ between two tables
#   make install PREFIX=/usr/local header, archive and pkg-config file; DESTDIR is put before PREFIX
#   make uninstall                 takes these three away again
#   make settings                  measures which settings take how many routes, and what a D for each length
#                                  saves; SEED=1 fixes them
#   make second                    target/second, the independent program that checks the library and
#                                  the text program
#   make soak SECONDS=60           runs it on random histories, or CALLS=10000000; SEED=1 fixes them. On a
#                                  machine that is not x86-64 half are on the library compiled for that machine,
#                                  for testing only, and half on the archive
#   make memory                    shows under valgrind that the library touches no byte that is not lent;
#                                  SEED=1 fixes the calls, TABLES=1000 says how many tables they are of
#   make edits                     runs each wrong edit of code, to show that it is a wrong program
#   make bench                     the time of lookups, match vectors, updates, messages, imports, replays and
#                                  comparisons beside calls written by hand in C, of lists beside single
#                                  lookups, on tables with one D and with a D for each length, and the text
#                                  program's beside the second program
#   make bench BEFORE=COMMIT       the time of all calls but change, clear, comparisons, the end of a stream and
#                                  the writing of withdrawals beside those of an earlier commit's library, which
#                                  is proved and built first, so it has to be one that today's kit takes, with
#                                  crates/gateway_c; one up to 0.5, with one D for all lengths, only on
#                                  tables that have one, and messages, imports and replays only if it has them.
#                                  All calls are party 0's, as are those of one up to 0.9
#   make clean                     removes target/, where all of this is built, and what the kit kept
#
# Needed are the kit's command rt on the PATH (but for make settings and make clean), gcc for all that
# is C, rustc for second, soak, bench and test, g++ and python3 for test, valgrind for memory, git for bench
# with BEFORE. The first make run or make lib takes some minutes, the first make test the better part of an hour.
.DEFAULT_GOAL = help
.PHONY: help test run lib examples install uninstall settings second soak memory edits bench clean

VERSION := $(shell sed -n 's/^.define GATEWAY_VERSION "\(.*\)"/\1/p' include/gateway.h)
PREFIX = /usr/local
RT = tools/rt
RUSTC = rustc
CC = tools/x86-cc
CFLAGS = -O2
WARNINGS = -std=c99 -Wall -Wextra -Wpedantic
# Compiles what needs no library, for the machine at hand.
NATIVE_CC = gcc

ARCHIVE = target/staticlib/libgateway.a
TEXT_PROGRAM = target/bin/text_program

help:
	@sed -n '/^[^#]/q; s/^# \{0,1\}//p' Makefile

test:
	@tests/all

run: $(TEXT_PROGRAM)
	@tests/start $(TEXT_PROGRAM)

lib: $(ARCHIVE)

SOURCES = crates.txt $(shell find crates -type f -not -path '*/out/*')

$(ARCHIVE): $(SOURCES)
	@$(RT) --in gateway_c lib
	@mkdir -p $(@D)
	@cp crates/gateway_c/out/libgateway_c.a $@

# rt run builds it on the way; what it answers to no input is not looked at.
$(TEXT_PROGRAM): $(SOURCES)
	@$(RT) --in text_program run >&2
	@mkdir -p $(@D)
	@cp crates/text_program/out/text_program $@

EXAMPLES = target/forward target/neighbour target/fill target/replay target/shared target/differences

examples: $(EXAMPLES)

$(EXAMPLES): target/%: examples/%.c examples/text.h examples/files.h examples/lines.h include/gateway.h $(ARCHIVE)
	$(CC) $(WARNINGS) $(CFLAGS) -Iinclude -o $@ $< $(ARCHIVE)

INTO = $(DESTDIR)$(PREFIX)
INSTALLED = include/gateway.h lib/libgateway.a lib/pkgconfig/gateway.pc
CHECK_PREFIX = case '$(PREFIX)' in /*) ;; *) echo "make $@: PREFIX must be a path from /: '$(PREFIX)'" >&2; exit 1 ;; esac

# In gateway.pc a space within a path has a backslash before it.
install: lib
	@$(CHECK_PREFIX)
	install -d '$(INTO)/include' '$(INTO)/lib/pkgconfig'
	install -m 644 include/gateway.h '$(INTO)/include'
	install -m 644 $(ARCHIVE) '$(INTO)/lib'
	@printf '%s\n' "prefix=$$(printf '%s' '$(PREFIX)' | sed 's/ /\\ /g')" 'includedir=$${prefix}/include' \
	    'libdir=$${prefix}/lib' '' 'Name: gateway' 'Description: Route table with longest-prefix match, proved' \
	    'Version: $(VERSION)' 'Cflags: -I$${includedir}' 'Libs: -L$${libdir} -lgateway' \
	    > '$(INTO)/lib/pkgconfig/gateway.pc'
	@chmod 644 '$(INTO)/lib/pkgconfig/gateway.pc'

uninstall:
	@$(CHECK_PREFIX)
	@for file in $(INSTALLED); do rm -f '$(INTO)'/$$file || exit 1; done

# What is measured and checked most: on x86-64 the archive; elsewhere, where that would run under an emulator,
# an object for the machine at hand, compiled from the module that the archive is compiled from. It is not
# shipped.
ifeq ($(shell uname -m),x86_64)
MEASURED = $(ARCHIVE)
else
MEASURED = target/native.o
endif

target/native.o: $(ARCHIVE) tools/native
	@tools/native $@

settings: target/settings
	@target/settings $(SEED)

target/settings: bench/settings.c bench/mixed.h bench/random.h
	@mkdir -p target
	@$(NATIVE_CC) $(WARNINGS) -O2 -o $@ bench/settings.c

second: target/second target/host

target/second: $(wildcard second/src/*.rs)
	@mkdir -p target
	$(RUSTC) --edition 2021 -O -D warnings --crate-name second -o $@ second/src/main.rs

target/host: second/host.c include/gateway.h $(ARCHIVE)
	$(CC) $(WARNINGS) $(CFLAGS) -Iinclude -o $@ second/host.c $(ARCHIVE)

# A run of the calls or seconds that are asked, divided by so many.
SOAK = target/second $(if $(SEED),--seed $(SEED)) $(if $(CALLS),--calls,--seconds) \
    $$((($(or $(CALLS),$(SECONDS),60) + $(1) - 1) / $(1)))

ifeq ($(MEASURED),$(ARCHIVE))
soak: second
	@$(call SOAK,1)
else
soak: second target/native-host
	@echo 'half on the library compiled for this machine, for testing only:'
	@$(call SOAK,2) --host target/native-host
	@echo
	@echo 'half on the archive, which is what is shipped, under an emulator:'
	@$(call SOAK,2)
endif

target/native-host: second/host.c include/gateway.h target/native.o
	$(NATIVE_CC) $(WARNINGS) $(CFLAGS) -Iinclude -o $@ second/host.c target/native.o

# Between blocks of memory there are 4096 bytes that nothing may touch, the most that valgrind keeps.
memory: target/lent
	@command -v valgrind >/dev/null || \
	    { echo "make memory: valgrind is missing: install Debian's package valgrind" >&2; exit 1; }
	@[ '$(MEASURED)' = '$(ARCHIVE)' ] || echo 'the library as compiled for this machine, for testing only:'
	@valgrind -q --error-exitcode=1 --redzone-size=4096 target/lent $(or $(SEED),$$(date +%s)) $(or $(TABLES),1000)

target/lent: tests/lent.c bench/table.c bench/table.h bench/calls.h bench/random.h include/gateway.h $(MEASURED)
	$(NATIVE_CC) $(WARNINGS) -O1 -g -Iinclude -Ibench -o $@ tests/lent.c bench/table.c $(MEASURED)

edits: target/second
	@tests/edits

# With BEFORE the library is measured beside that of an earlier commit, and else beside plain C.
ifeq ($(BEFORE),)
bench: target/bench target/second $(TEXT_PROGRAM)
	@[ '$(MEASURED)' = '$(ARCHIVE)' ] || echo 'the library is measured as compiled for this machine, the text program under an emulator'
	@target/bench
	@echo
	@bench/lines
else
bench: target/now.o
	@bench/before '$(BEFORE)' target/before.o > target/before.kind
	@$(NATIVE_CC) $(WARNINGS) -O3 -Iinclude -Ibench -o target/bench-before bench/before.c bench/measure.c \
	    target/before.o target/now.o
	@[ '$(MEASURED)' = '$(ARCHIVE)' ] || echo 'both libraries are measured as compiled for this machine'
	@target/bench-before '$(BEFORE)' "$$(cat target/before.kind)"
endif

target/now.o: $(MEASURED) tools/renamed
	@tools/renamed $(MEASURED) now $@

MEASURING = bench/measure.c bench/measure.h bench/mixed.h bench/calls.h bench/random.h include/gateway.h

target/bench: bench/bench.c bench/comparisons.c bench/comparisons.h bench/table.c bench/table.h $(MEASURING) $(MEASURED)
	$(NATIVE_CC) $(WARNINGS) -O3 -Iinclude -Ibench -o $@ bench/bench.c bench/comparisons.c bench/table.c \
	    bench/measure.c $(MEASURED)

clean:
	rm -rf target crates/*/out
