# What there is to make. `make` alone says it.
PREFIX ?= /usr/local
DESTDIR ?=
CFLAGS ?= -O2
WARNINGS := -std=c99 -Wall -Wextra -Wpedantic

LIBRARY := target/staticlib/libframed_c.a
PROGRAMS := target/bin/framerun target/bin/replay
COMMAND := bindings/rust/target/release/framed
EXAMPLES := target/embed target/many target/tidy
CARGO := --release --offline --manifest-path bindings/rust/Cargo.toml
VERSION := $(shell sed -n 's/^\#define FRAMED_VERSION "\(.*\)"$$/\1/p' include/framed.h)

# one after the other: each rule that proves uses more than one core, and all write to target/
.NOTPARALLEL:
.DELETE_ON_ERROR:
.PHONY: help prove check library programs command examples test install install-library install-programs uninstall

help:
	@echo 'Fulgwezen $(VERSION). What to make:'
	@echo
	@echo '  prove      everything from nothing, each wrong version refused, each program run (rt ci): the gate'
	@echo '  check      what changed since it was last proved, and what stands on it (rt all check)'
	@echo '  library    $(LIBRARY), for C and Rust (rt lib in crates/framed_c)'
	@echo '  programs   target/bin/framerun and target/bin/replay (rt run in their folders)'
	@echo '  command    the Rust command framed, in bindings/rust/target/release'
	@echo '  examples   the C examples target/embed, target/many and target/tidy'
	@echo '  test       the Rust tests, and through them the C examples'
	@echo '  install    library, header, framed.pc, framerun, replay and framed below PREFIX=$(PREFIX), staged in DESTDIR'
	@echo '  install-library, install-programs    the two halves of it: the first needs no cargo'
	@echo '  uninstall  takes them away again'
	@echo
	@echo 'Times on two cores, of the older kit: the library from nothing about 10 minutes, everything (check) about 12, the whole'
	@echo 'gate (prove) about 35. Later runs only look at what changed.'
	@echo 'examples, test and install take the library and the programs that are there, and build what is missing:'
	@echo 'after a change make library, programs and command first.'

prove:
	rt ci

check:
	rt all check

library:
	cd crates/framed_c && rt lib
	install -D -m 644 crates/framed_c/out/libframed_c.a $(LIBRARY)

# rt run proves, builds and runs a program, here on nothing
programs:
	for it in framerun replay; do (cd crates/$$it && rt run < /dev/null > /dev/null) && install -D -m 755 crates/$$it/out/$$it target/bin/$$it || exit 1; done

command: | $(LIBRARY)
	cargo build $(CARGO) --bin framed

examples: $(EXAMPLES)

test: | $(LIBRARY)
	cargo test $(CARGO)

# The files have no prerequisites that are proved: what is there is taken as it is.
$(LIBRARY):
	$(MAKE) library

$(PROGRAMS):
	$(MAKE) programs

$(COMMAND): | $(LIBRARY)
	cargo build $(CARGO) --bin framed

$(EXAMPLES): target/%: examples/%.c include/framed.h $(LIBRARY)
	$(CC) $(CFLAGS) $(WARNINGS) -Iinclude $< $(LIBRARY) $(LDFLAGS) -o $@

install: install-library install-programs

install-library: $(LIBRARY)
	install -d '$(DESTDIR)$(PREFIX)/lib/pkgconfig' '$(DESTDIR)$(PREFIX)/include'
	install -m 644 $(LIBRARY) '$(DESTDIR)$(PREFIX)/lib/libframed_c.a'
	install -m 644 include/framed.h '$(DESTDIR)$(PREFIX)/include/framed.h'
	sed -e 's|@PREFIX@|$(PREFIX)|' -e 's|@VERSION@|$(VERSION)|' include/framed.pc.in > '$(DESTDIR)$(PREFIX)/lib/pkgconfig/framed.pc'
	chmod 644 '$(DESTDIR)$(PREFIX)/lib/pkgconfig/framed.pc'

install-programs: $(PROGRAMS) $(COMMAND)
	install -d '$(DESTDIR)$(PREFIX)/bin'
	install -m 755 $(PROGRAMS) $(COMMAND) '$(DESTDIR)$(PREFIX)/bin'

uninstall:
	rm -f '$(DESTDIR)$(PREFIX)/lib/libframed_c.a' '$(DESTDIR)$(PREFIX)/include/framed.h' '$(DESTDIR)$(PREFIX)/lib/pkgconfig/framed.pc'
	rm -f '$(DESTDIR)$(PREFIX)/bin/framerun' '$(DESTDIR)$(PREFIX)/bin/replay' '$(DESTDIR)$(PREFIX)/bin/framed'
