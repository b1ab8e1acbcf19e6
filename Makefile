# make proves and builds the library, the screen box above it and the commands; `make help` lists what else it can do.
# SPDX-License-Identifier: MIT
# What is built is for x86-64. Elsewhere it is cross-built, and what is run runs under an emulator. CC, CPPFLAGS, CFLAGS and LDFLAGS
# are for the commands; the library is compiled by the kit.

# The archives of the crates that tools/kit lists, and the library that some of them make together, which is installed with the package above it.
ARCHIVE = target/library/libneapwillow.a
SCREEN_ARCHIVE = target/staticlib/libneapwillow_screen.a
ARCHIVES := $(ARCHIVE) $(patsubst %,target/staticlib/lib%.a,$(shell sed -n 's/^\(exporting\|above\)=(\(.*\))/\2/p' tools/kit))
SOURCES := crates.txt $(shell find crates -name out -prune -o -type f -print)
include install.mk
.DEFAULT_GOAL := all

.PHONY: all help check dist drill clean

all: $(ARCHIVES) $(PROGRAMS:%=target/bin/%)

# Only what is older than a source: once it is built, `make install` needs neither the prover nor a tree that can be written.
$(ARCHIVES) &: $(SOURCES)
	tools/build

$(PROGRAMS:%=target/bin/%) &: $(ARCHIVES) $(wildcard programs/* programs/nw/* include/*) examples/stream.h
	tools/build

help:
	@echo 'make            proves and builds the library, the screen box above it and the commands $(PROGRAMS)'
	@echo 'make install    puts them down below PREFIX ($(PREFIX)), with headers, man pages, completion and pkg-config files; DESTDIR stages'
	@echo 'make uninstall  removes them again'
	@echo 'make check      runs the tests through C, without the proofs; ./test is the whole gate'
	@echo 'make dist       makes a tarball in target/dist, from which clang alone builds the library and the commands'
	@echo 'make drill      a drill from end to end'
	@echo 'make clean      removes what was built'

# The tests through C, without the proofs' own gate: that is ./test.
check: all
	tools/checks

# A release that is built by clang alone: neapwillow-VERSION.tar.gz in target/dist.
dist:
	tools/dist

drill:
	tools/drill

# What was built, and not what was proved, which stands in each crate's out/: `rm -rf crates/*/out` removes that too.
clean:
	rm -rf target/bin target/staticlib target/library target/c target/native target/counted target/dist target/drill
