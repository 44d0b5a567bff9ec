# Builds what is installed, and installs it.
#
#   make                              proves the library (needs rt) and builds the tool (needs cargo)
#   make install PREFIX=/usr/local    library, header, pkg-config file, tool and man pages; DESTDIR is put before every path
#   make uninstall PREFIX=/usr/local
#
# LIBRARY and TOOL name files that are there already; they are installed as they are.
PREFIX ?= /usr/local
DESTDIR ?=
LIBRARY ?= crates/zenfrosta/out/libzenfrosta.a
TOOL ?= tool/target/release/zenfrosta
VERSION := $(shell cat VERSION)

bindir = $(DESTDIR)$(PREFIX)/bin
libdir = $(DESTDIR)$(PREFIX)/lib
includedir = $(DESTDIR)$(PREFIX)/include
mandir = $(DESTDIR)$(PREFIX)/share/man

all: $(LIBRARY) $(TOOL)

crates/zenfrosta/out/libzenfrosta.a:
	cd crates/zenfrosta && rt lib

tool/target/release/zenfrosta: $(LIBRARY)
	cargo build --release --offline --locked --manifest-path tool/Cargo.toml

install: all
	install -d "$(bindir)" "$(libdir)/pkgconfig" "$(includedir)" "$(mandir)/man1" "$(mandir)/man3"
	install -m 644 $(LIBRARY) "$(libdir)/libzenfrosta.a"
	install -m 644 include/zenfrosta.h "$(includedir)/zenfrosta.h"
	sed -e 's|@PREFIX@|$(PREFIX)|' -e 's|@VERSION@|$(VERSION)|' hosts/zenfrosta.pc.in > "$(libdir)/pkgconfig/zenfrosta.pc"
	chmod 644 "$(libdir)/pkgconfig/zenfrosta.pc"
	install -m 755 $(TOOL) "$(bindir)/zenfrosta"
	install -m 644 tool/man/zenfrosta.1 "$(mandir)/man1/zenfrosta.1"
	install -m 644 tool/man/zenfrosta.3 "$(mandir)/man3/zenfrosta.3"

uninstall:
	rm -f "$(libdir)/libzenfrosta.a" "$(libdir)/pkgconfig/zenfrosta.pc" "$(includedir)/zenfrosta.h" "$(bindir)/zenfrosta"
	rm -f "$(mandir)/man1/zenfrosta.1" "$(mandir)/man3/zenfrosta.3"

.PHONY: all install uninstall
