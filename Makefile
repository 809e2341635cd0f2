# Installs what lib/build and tools/build make: the library for C, its header and its page for pkg-config, and the program
# where it is built. Both are proved first, which takes an hour or more.
#
#   make                          builds both
#   make library                  builds the library alone
#   make install PREFIX=/usr/local DESTDIR=
#   make uninstall, with the same words

PREFIX ?= /usr/local
BINDIR ?= $(PREFIX)/bin
INCLUDEDIR ?= $(PREFIX)/include
LIBDIR ?= $(PREFIX)/lib
PKGCONFIGDIR ?= $(LIBDIR)/pkgconfig
INSTALL ?= install

VERSION := $(shell sed -n 's/^\#define FASTCAT_VERSION "\(.*\)"$$/\1/p' include/fastcat.h)
SHARED := libfastcat.so.$(VERSION)
CALLED := $(basename $(SHARED))
PROGRAM := crates/fastcat/out/fastcat

all: library program

library:
	lib/build

program:
	tools/build

install:
	@test -e lib/$(SHARED) || { echo "lib/$(SHARED) is not there; make library builds it" >&2; exit 1; }
	$(INSTALL) -d $(DESTDIR)$(INCLUDEDIR) $(DESTDIR)$(LIBDIR) $(DESTDIR)$(PKGCONFIGDIR)
	$(INSTALL) -m 644 include/fastcat.h $(DESTDIR)$(INCLUDEDIR)
	$(INSTALL) -m 644 lib/libfastcat.a $(DESTDIR)$(LIBDIR)
	$(INSTALL) -m 755 lib/$(SHARED) $(DESTDIR)$(LIBDIR)
	ln -sf $(SHARED) $(DESTDIR)$(LIBDIR)/$(CALLED)
	ln -sf $(CALLED) $(DESTDIR)$(LIBDIR)/libfastcat.so
	sed -e 's|@PREFIX@|$(PREFIX)|' -e 's|@LIBDIR@|$(LIBDIR)|' -e 's|@INCLUDEDIR@|$(INCLUDEDIR)|' \
	  -e 's|@VERSION@|$(VERSION)|' lib/fastcat.pc.in > $(DESTDIR)$(PKGCONFIGDIR)/fastcat.pc
	if test -e $(PROGRAM); then \
	  $(INSTALL) -d $(DESTDIR)$(BINDIR) && $(INSTALL) -m 755 $(PROGRAM) $(DESTDIR)$(BINDIR); fi

uninstall:
	rm -f $(DESTDIR)$(INCLUDEDIR)/fastcat.h $(DESTDIR)$(PKGCONFIGDIR)/fastcat.pc $(DESTDIR)$(BINDIR)/fastcat
	cd $(DESTDIR)$(LIBDIR) && rm -f libfastcat.a libfastcat.so $(CALLED) $(SHARED)

.PHONY: all library program install uninstall
