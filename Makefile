# make                      proves the library and writes the archive for hosts in C, and the program
# make list FILE=..         runs mirrorlist on a FASTA file
# make key FILE=..          prints the key of a list of calls
# make test                 runs the tests around the proofs
# make install PREFIX=..    puts the header, the archive, its pkg-config file and the program in place
#
# Everything proved is built by rt, which must not run twice at a time in one checkout. Its account goes to standard error,
# a line or two a crate, and whole where it fails: the output of `make list` and `make key` is the list or the key alone.
.NOTPARALLEL:
.DELETE_ON_ERROR:
SHELL := /bin/bash
.SHELLFLAGS := -o pipefail -c
prove = @mkdir -p target; $(1) 2>&1 | tee target/prove.txt | grep --line-buffered '^rt: ' >&2 || { cat target/prove.txt >&2; exit 1; }

PREFIX ?= /usr/local
DESTDIR ?=
prefix := $(abspath $(PREFIX))
to := $(DESTDIR)$(prefix)

sources := crates.txt $(shell find crates -name out -prune -o '(' -name '*.rt' -o -name '*.antt' ')' -print)
archive := target/staticlib/libhost.a
program := target/bin/mirrorlist

.PHONY: all list key test install
all: $(archive) $(program)

$(archive): $(sources)
	$(call prove,tests/archive host)
	@touch $@

target/bin/%: $(sources)
	$(call prove,tests/program $*)
	@touch $@

target/key: examples/key.c include/mirror.h $(archive)
	@$(CC) -O2 -std=c11 -Iinclude -o $@ examples/key.c $(archive)

list: FILE ?= examples/e1.fa
list: $(program)
	@$(program) <'$(FILE)'

key: FILE ?= examples/both-ends.calls
key: target/key
	@target/key '$(FILE)'

test:
	tests/run

install: all
	install -d $(to)/include $(to)/lib/pkgconfig $(to)/bin
	install -m 644 include/mirror.h $(to)/include/mirror.h
	install -m 644 $(archive) $(to)/lib/libmirror.a
	sed 's|@PREFIX@|$(prefix)|' mirror.pc.in >$(to)/lib/pkgconfig/mirror.pc
	chmod 644 $(to)/lib/pkgconfig/mirror.pc
	install -m 755 $(program) $(to)/bin
