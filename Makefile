# The library and the command, proved and built, and put where people expect them.
#
#     make                        target/lib/libdekvoz.a and target/cli/release/dekvoz
#     make install PREFIX=/usr/local [DESTDIR=..]
#     make uninstall PREFIX=/usr/local
#     make check                  the tests of the command
PREFIX = /usr/local
DESTDIR =
VERSION = 0.1.0

bin = $(DESTDIR)$(PREFIX)/bin
lib = $(DESTDIR)$(PREFIX)/lib
include = $(DESTDIR)$(PREFIX)/include
man = $(DESTDIR)$(PREFIX)/share/man/man1
completions = $(DESTDIR)$(PREFIX)/share/bash-completion/completions
archive = target/lib/libdekvoz.a
command = target/cli/release/dekvoz

.PHONY: all check install uninstall
all: $(command)

$(archive): $(shell find crates -name out -prune -o \( -path '*/src/*' -o -path '*/specs/*' -o -path '*/proofs/*' \) -print) crates.txt bindings/archive
	bindings/archive

$(command): $(archive) $(wildcard cli/src/* cli/Cargo.toml bindings/rust/src/* bindings/rust/Cargo.toml bindings/rust/build.rs)
	cargo build --release --offline --manifest-path cli/Cargo.toml --target-dir target/cli
	@touch $@

check: $(command)
	python3 differential/checks/command.py

target/dekvoz.pc: Makefile
	@mkdir -p target
	@printf '%s\n' 'prefix=$(PREFIX)' 'includedir=$${prefix}/include' 'libdir=$${prefix}/lib' '' 'Name: dekvoz' \
	    'Description: unwind tables, written and read by functions that are proved' 'Version: $(VERSION)' \
	    'Cflags: -I$${includedir}' 'Libs: -L$${libdir} -ldekvoz' > $@

install: all
	@rm -f target/dekvoz.pc
	@$(MAKE) --no-print-directory target/dekvoz.pc
	install -D -m 755 $(command) $(bin)/dekvoz
	install -D -m 644 $(archive) $(lib)/libdekvoz.a
	install -D -m 644 target/dekvoz.pc $(lib)/pkgconfig/dekvoz.pc
	install -D -m 644 include/dekvoz.h $(include)/dekvoz.h
	install -D -m 644 cli/dekvoz.1 $(man)/dekvoz.1
	install -D -m 644 cli/dekvoz.bash $(completions)/dekvoz

uninstall:
	rm -f $(bin)/dekvoz $(lib)/libdekvoz.a $(lib)/pkgconfig/dekvoz.pc $(include)/dekvoz.h $(man)/dekvoz.1 $(completions)/dekvoz
