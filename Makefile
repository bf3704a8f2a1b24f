# `make` builds the library and runs its main job on the bench shelf; `make test` is the gate; `make bench` measures; `make install` puts
# header, library, row program and manual pages under PREFIX, and DESTDIR stands before it while a package is made.
PREFIX = /usr/local
DESTDIR =
into = $(DESTDIR)$(PREFIX)
sources := crates.txt $(shell find crates -name out -prune -o \( -name '*.rt' -o -name '*.antt' \) -print)

all:
	tools/native-lib
	$(CC) -std=c99 -O2 -Iinclude tests/c/example.c target/native/libshelf_c.a -o target/example
	target/example

test:
	.ci/run

bench: target/plain-rebuild
	tools/native-lib
	cargo run --quiet --offline --locked --release --manifest-path bench/Cargo.toml --target-dir target/cargo --bin rebuild -- target/plain-rebuild 1.15
	cargo run --quiet --offline --locked --release --manifest-path bench/Cargo.toml --target-dir target/cargo --bin small
	cargo run --quiet --offline --locked --release --manifest-path bench/Cargo.toml --target-dir target/cargo --bin xdwrite

# The plain program that REBUILD is held to, at the optimisation level of the library and of the loops beside it, and as these for
# every processor of the machine's kind.
target/plain-rebuild: docs/src/rebuild.rs
	mkdir -p target
	rustc --edition 2021 -C opt-level=3 -o $@ $<

# Only what is older than a source is made again, so that whoever installs needs no kit.
target/native/libshelf_c.a: $(sources)
	tools/native-lib

crates/rows/out/rows: $(sources)
	cd crates/rows && rt run </dev/null >/dev/null
	touch $@

install: install-library install-rows-$(shell uname -m)

install-library: target/native/libshelf_c.a
	install -d '$(into)/include' '$(into)/lib/pkgconfig' '$(into)/share/man/man3'
	install -m 644 include/shelf.h '$(into)/include/'
	install -m 644 target/native/libshelf_c.a '$(into)/lib/'
	sed 's|@PREFIX@|$(PREFIX)|' include/shelf.pc.in >'$(into)/lib/pkgconfig/shelf.pc'
	chmod 644 '$(into)/lib/pkgconfig/shelf.pc'
	install -m 644 docs/man/shelf.3 '$(into)/share/man/man3/'

# The row program is for x86-64, where it runs by itself: its one library is the C library (glibc 2.34 or later).
install-rows-x86_64: crates/rows/out/rows
	install -d '$(into)/bin' '$(into)/share/man/man1'
	install -m 755 crates/rows/out/rows '$(into)/bin/'
	install -m 644 docs/man/rows.1 '$(into)/share/man/man1/'

# Elsewhere it needs an emulator: tools/rows runs it there.
install-rows-%:
	@echo "install: the row program is for x86-64 and is left out; tools/rows runs it here, with the emulator qemu-x86_64"

.PHONY: all test bench install install-library install-rows-x86_64
