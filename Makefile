# What one does with the repository. `make help` lists it.

# The header has it.
VERSION = $(shell sed -n 's/^.define PEWATUNO_VERSION "\(.*\)"$$/\1/p' include/pewatuno.h)
PREFIX = /usr/local
DESTDIR =
SAMPLE = ordinary

BUILD = tools/build
CARGO = cargo
INSTALL = install

SETTLE = target/bin/settle
PAGES = target/bin/pages
ARCHIVE = target/staticlib/libhour_offset.a
RECORDTEXT = recordtext/target/release/recordtext
SETTLE_DAY = recordtext/target/release/settle-day
PEER_SETTLE = peer/target/release/peer-settle
PEER_PAGES = peer/target/release/peer-pages
CALL_STACK = target/call_stack

bin = $(DESTDIR)$(PREFIX)/bin
include = $(DESTDIR)$(PREFIX)/include
lib = $(DESTDIR)$(PREFIX)/lib
man = $(DESTDIR)$(PREFIX)/share/man
doc = $(DESTDIR)$(PREFIX)/share/doc/pewatuno

installed = $(bin)/settle $(bin)/pages $(bin)/settle-day $(bin)/recordtext \
	$(include)/pewatuno.h $(lib)/libpewatuno.a $(lib)/pkgconfig/pewatuno.pc \
	$(man)/man1/settle.1 $(man)/man1/pages.1 $(man)/man1/settle-day.1 $(man)/man1/recordtext.1 \
	$(man)/man3/pewatuno_hour_offset.3 $(man)/man5/pewatuno-records.5 $(man)/man7/pewatuno-amounts.7 $(doc)

measure = $(CARGO) run --offline --release --manifest-path bench/Cargo.toml --bin
costs = $(measure) costs $(SETTLE) $(PEER_SETTLE) $(PAGES) $(PEER_PAGES) $(CALL_STACK)

.PHONY: help build programs settle archive bridge recordtext peer call-stack sample test bench costs install uninstall clean

help:
	@echo 'make build      prove and build the programs settle and pages and the archive for C, build settle-day and recordtext'
	@echo 'make sample     prove and build settle, and settle a sample day (SAMPLE=$(SAMPLE); see samples/README.md)'
	@echo 'make test       run every test, from nothing'
	@echo 'make bench      hold the proved side against the independent one, and measure both'
	@echo 'make costs      measure both: instructions, times, stack'
	@echo 'make install    install what build made (PREFIX=$(PREFIX), DESTDIR=$(DESTDIR))'
	@echo 'make uninstall  remove what install put there'
	@echo 'make clean      remove everything that was built'

build: programs archive recordtext

# What has not changed is not proved again.
programs:
	$(BUILD) settle pages

settle:
	$(BUILD) settle

archive:
	$(BUILD) hour_offset

bridge:
	$(BUILD) bridge

recordtext:
	$(CARGO) build --offline --release --manifest-path recordtext/Cargo.toml

peer:
	$(CARGO) build --offline --release --manifest-path peer/Cargo.toml

call-stack: archive
	$(CC) -std=c99 -O1 -Wall -Wextra -Iinclude bench/call_stack.c $(ARCHIVE) -pthread -o $(CALL_STACK)

sample: settle recordtext
	PEWATUNO_SETTLE=$(SETTLE) $(SETTLE_DAY) samples/$(SAMPLE).rec

test:
	./test

bench: programs peer bridge archive call-stack
	$(measure) bench
	$(measure) speed
	$(costs)

costs: programs peer bridge archive call-stack
	$(costs)

# Builds nothing, so that it can run with other rights than the build.
install:
	@for file in $(SETTLE) $(PAGES) $(SETTLE_DAY) $(RECORDTEXT) $(ARCHIVE); do \
		[ -f $$file ] || { echo "$$file is not there: run 'make build' first" >&2; exit 1; }; \
	done
	$(INSTALL) -d $(bin) $(include) $(lib)/pkgconfig $(man)/man1 $(man)/man3 $(man)/man5 $(man)/man7 $(doc)/samples
	$(INSTALL) -m 755 $(SETTLE) $(bin)/settle
	$(INSTALL) -m 755 $(PAGES) $(bin)/pages
	$(INSTALL) -m 755 $(SETTLE_DAY) $(bin)/settle-day
	$(INSTALL) -m 755 $(RECORDTEXT) $(bin)/recordtext
	$(INSTALL) -m 644 include/pewatuno.h $(include)/pewatuno.h
	$(INSTALL) -m 644 $(ARCHIVE) $(lib)/libpewatuno.a
	sed 's|@PREFIX@|$(PREFIX)|; s|@VERSION@|$(VERSION)|' pewatuno.pc.in > $(lib)/pkgconfig/pewatuno.pc
	chmod 644 $(lib)/pkgconfig/pewatuno.pc
	$(INSTALL) -m 644 man/settle.1 man/pages.1 man/settle-day.1 man/recordtext.1 $(man)/man1
	$(INSTALL) -m 644 man/pewatuno_hour_offset.3 $(man)/man3
	$(INSTALL) -m 644 man/pewatuno-records.5 $(man)/man5
	$(INSTALL) -m 644 man/pewatuno-amounts.7 $(man)/man7
	$(INSTALL) -m 644 samples/*.txt samples/*.rec samples/*.out samples/*.pages $(doc)/samples

uninstall:
	rm -rf $(installed)

clean:
	rm -rf target peer/target recordtext/target bench/target crates/*/out
