#: make demo       a station logs in, sends readings over a line that loses some, and gets setpoints over a stateful modem
#: make tape       the bench's program, target/bin/tape, that records, lists and replays tapes, and keeps marks beside them
#: make test       every proof and every test; the last line is the verdict, `N passed, 0 failed`
#: make fuzz       the library against an independent program, with fresh cases, for SECONDS=60
#: make bench      the library's speed beside plain C and OpenSSL, in one run
#: make stack      the stack that each call takes
#: make lib        the library for C, target/lib/libudukemb.a
#: make install    the library, its header, manual page and pkg-config file below PREFIX=/usr/local; DESTDIR goes in front
.PHONY: help demo tape test fuzz bench stack lib install archive
.NOTPARALLEL:

SECONDS = 60
PREFIX = /usr/local
C = gcc -std=c11 -O2 -Wall -Wextra -Werror
TAPE = tape recording marks walk words files line

help:
	@sed -n 's/^#: //p' Makefile

demo: archive
	@mkdir -p target/bin
	@$(C) -Iinclude -o target/bin/demo demo/demo.c demo/line.c target/lib/libudukemb.a
	@target/bin/demo

tape: archive
	@mkdir -p target/bin
	@$(C) -Iinclude -o target/bin/tape $(TAPE:%=demo/%.c) target/lib/libudukemb.a
	@echo "target/bin/tape; without arguments it says how it is used"

test:
	@tests/run

fuzz:
	@tests/compare/run time $(SECONDS)

bench:
	@tools/needs rt gcc openssl
	@tools/prove library bench
	@bench/run

stack: archive
	@tools/stack target/lib/libudukemb.a include/udukemb.h

lib: archive
	@echo "target/lib/libudukemb.a, for include/udukemb.h"

archive:
	@tools/needs rt gcc
	@tools/prove library host
	@mkdir -p target/lib
	@cp crates/host/out/libhost.a target/lib/libudukemb.a

install: archive
	@tools/install "$(PREFIX)" "$(DESTDIR)"
