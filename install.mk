# What `make install` puts down and `make uninstall` removes: one list, for the source tree's Makefile and for a release's.
# SPDX-License-Identifier: MIT
# A Makefile that includes it says which libraries were built: ARCHIVE, the screen box's SCREEN_ARCHIVE, and SHARED where there are shared ones.
VERSION := $(shell cat VERSION)
# While the first number is 0, a new second number may change the ABI, so the soname has both.
SOVERSION := $(basename $(VERSION))
PREFIX ?= /usr/local
DESTDIR ?=
BINDIR ?= $(PREFIX)/bin
LIBDIR ?= $(PREFIX)/lib
INCLUDEDIR ?= $(PREFIX)/include
MANDIR ?= $(PREFIX)/share/man
DOCDIR ?= $(PREFIX)/share/doc/neapwillow
DATADIR ?= $(PREFIX)/share/neapwillow
BASHDIR ?= $(PREFIX)/share/bash-completion/completions
ZSHDIR ?= $(PREFIX)/share/zsh/site-functions
INSTALL ?= install
PROGRAMS = nw nw-dates nw-salvage nw-section
# The library, and the package above it: of each an archive, a header, a pkg-config file and a man page.
LIBRARIES = neapwillow neapwillow-screen
DOCUMENTS := $(wildcard README.md CHANGELOG.md SECURITY.md LICENSE PROVED docs/*.md docs/*.svg)
EXAMPLES := $(wildcard examples/*)
# The pages of section 3 that are made from the header, one for each group of functions.
PAGES := $(shell tools/manpages --list)

# Below the prefix a folder is told by it, so that the installed tree can be moved as a whole.
below = $(subst $(PREFIX)/,$${prefix}/,$(1))
FILL = sed -e 's|@VERSION@|$(VERSION)|g' -e 's|@PREFIX@|$(PREFIX)|g' \
    -e 's|@LIBDIR@|$(call below,$(LIBDIR))|g' -e 's|@INCLUDEDIR@|$(call below,$(INCLUDEDIR))|g'

.PHONY: install uninstall

install: all
	$(INSTALL) -d "$(DESTDIR)$(BINDIR)" "$(DESTDIR)$(LIBDIR)/pkgconfig" "$(DESTDIR)$(INCLUDEDIR)" "$(DESTDIR)$(MANDIR)/man1" \
	    "$(DESTDIR)$(MANDIR)/man3" "$(DESTDIR)$(DOCDIR)/examples" "$(DESTDIR)$(DATADIR)" "$(DESTDIR)$(BASHDIR)" "$(DESTDIR)$(ZSHDIR)"
	for name in $(PROGRAMS); do \
	    $(INSTALL) -m 755 "target/bin/$$name" "$(DESTDIR)$(BINDIR)/" && \
	    $(FILL) "man/$$name.1.in" >"$(DESTDIR)$(MANDIR)/man1/$$name.1" || exit 1; \
	done
	$(INSTALL) -m 644 $(ARCHIVE) "$(DESTDIR)$(LIBDIR)/libneapwillow.a"
	$(INSTALL) -m 644 $(SCREEN_ARCHIVE) "$(DESTDIR)$(LIBDIR)/libneapwillow-screen.a"
ifneq ($(SHARED),)
	$(INSTALL) -m 644 $(SHARED) "$(DESTDIR)$(LIBDIR)/"
	for name in $(LIBRARIES); do \
	    ln -sf "lib$$name.so.$(VERSION)" "$(DESTDIR)$(LIBDIR)/lib$$name.so.$(SOVERSION)" && \
	    ln -sf "lib$$name.so.$(SOVERSION)" "$(DESTDIR)$(LIBDIR)/lib$$name.so" || exit 1; \
	done
endif
	for name in $(LIBRARIES); do \
	    $(INSTALL) -m 644 "include/$$name.h" "$(DESTDIR)$(INCLUDEDIR)/" && \
	    $(FILL) "$$name.pc.in" >"$(DESTDIR)$(LIBDIR)/pkgconfig/$$name.pc" && \
	    $(FILL) "man/$$name.3.in" >"$(DESTDIR)$(MANDIR)/man3/$$name.3" || exit 1; \
	done
	tools/manpages "$(DESTDIR)$(MANDIR)/man3" "$(VERSION)"
	$(INSTALL) -m 644 docs/nw-show.schema.json "$(DESTDIR)$(DATADIR)/"
	$(INSTALL) -m 644 programs/completion/nw.bash "$(DESTDIR)$(BASHDIR)/nw"
	$(INSTALL) -m 644 programs/completion/_nw "$(DESTDIR)$(ZSHDIR)/"
	$(INSTALL) -m 644 $(DOCUMENTS) "$(DESTDIR)$(DOCDIR)/"
	$(INSTALL) -m 644 $(EXAMPLES) "$(DESTDIR)$(DOCDIR)/examples/"

# Each file that install writes, and the folders that are the library's own.
uninstall:
	for name in $(PROGRAMS); do rm -f "$(DESTDIR)$(BINDIR)/$$name" "$(DESTDIR)$(MANDIR)/man1/$$name.1"; done
	for name in $(LIBRARIES); do \
	    rm -f "$(DESTDIR)$(LIBDIR)/lib$$name.a" "$(DESTDIR)$(LIBDIR)/lib$$name.so" "$(DESTDIR)$(LIBDIR)/lib$$name.so.$(SOVERSION)" \
	        "$(DESTDIR)$(LIBDIR)/lib$$name.so.$(VERSION)" "$(DESTDIR)$(LIBDIR)/pkgconfig/$$name.pc" \
	        "$(DESTDIR)$(INCLUDEDIR)/$$name.h" "$(DESTDIR)$(MANDIR)/man3/$$name.3"; \
	done
	rm -f "$(DESTDIR)$(DATADIR)/nw-show.schema.json" "$(DESTDIR)$(BASHDIR)/nw" "$(DESTDIR)$(ZSHDIR)/_nw"
	for name in $(PAGES); do rm -f "$(DESTDIR)$(MANDIR)/man3/$$name.3"; done
	for name in $(notdir $(EXAMPLES)); do rm -f "$(DESTDIR)$(DOCDIR)/examples/$$name"; done
	for name in $(notdir $(DOCUMENTS)); do rm -f "$(DESTDIR)$(DOCDIR)/$$name"; done
	for folder in "$(DESTDIR)$(DOCDIR)/examples" "$(DESTDIR)$(DOCDIR)" "$(DESTDIR)$(DATADIR)"; do [ ! -d "$$folder" ] || rmdir "$$folder"; done
