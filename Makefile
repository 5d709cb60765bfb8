# Thin: tools/package and the scripts that it calls do the work.
#
#   make              the command target/command/rudignals, and the package in target/package
#   make check        every test (./check)
#   make install      header, libraries, rudignals.pc, command, completion and manual pages, under PREFIX; DESTDIR is put before it
#   make uninstall    takes the same files away again
#   make deb          four Debian packages in target/deb: rudignals, librudignals1, librudignals-dev, python3-rudignals
#   make clean        removes target/; the proofs stay, in crates/NAME/out, until `rm -rf crates/*/out`
PREFIX ?= /usr/local
DESTDIR ?=
BINDIR ?= $(PREFIX)/bin
INCLUDEDIR ?= $(PREFIX)/include
LIBDIR ?= $(PREFIX)/lib
MANDIR ?= $(PREFIX)/share/man
DOCDIR ?= $(PREFIX)/share/doc/rudignals
BASHDIR ?= $(PREFIX)/share/bash-completion/completions
ZSHDIR ?= $(PREFIX)/share/zsh/site-functions
FISHDIR ?= $(PREFIX)/share/fish/vendor_completions.d
export PREFIX DESTDIR BINDIR INCLUDEDIR LIBDIR MANDIR DOCDIR BASHDIR ZSHDIR FISHDIR

all:
	@tools/package build
check:
	@./check
install: all
	@tools/package install
uninstall:
	@tools/package uninstall
deb:
	@tools/package deb
clean:
	rm -rf target

.PHONY: all check install uninstall deb clean
