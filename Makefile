# make                                          proves the library and builds the archive (target/staticlib/libcendrulas.a)
# make install [PREFIX=/usr/local] [DESTDIR=]   puts the archive, the headers and a pkg-config file
PREFIX ?= /usr/local
LIBDIR ?= $(PREFIX)/lib
INCLUDEDIR ?= $(PREFIX)/include
ARCHIVE := target/staticlib/libcendrulas.a
# the header's number has the version as major * 65536 + minor * 256 + patch
VERSION := $(shell awk '$$2 == "CENDRULAS_VERSION" { n = $$3 + 0; printf "%d.%d.%d", n / 65536, n / 256 % 256, n % 256 }' include/cendrulas.h)

.PHONY: library install uninstall

library:
	host/library

# What is there is installed, and nothing is proved: an install may run as another user.
install:
	@test -f $(ARCHIVE) || { echo "install: $(ARCHIVE) is not built yet: run make first" >&2; exit 1; }
	install -d "$(DESTDIR)$(LIBDIR)/pkgconfig" "$(DESTDIR)$(INCLUDEDIR)"
	install -m 644 $(ARCHIVE) "$(DESTDIR)$(LIBDIR)"
	install -m 644 include/cendrulas.h include/cendrulas_parties.h "$(DESTDIR)$(INCLUDEDIR)"
	sed -e 's|@LIBDIR@|$(LIBDIR)|' -e 's|@INCLUDEDIR@|$(INCLUDEDIR)|' -e 's|@VERSION@|$(VERSION)|' host/package/cendrulas.pc.in \
	    > "$(DESTDIR)$(LIBDIR)/pkgconfig/cendrulas.pc"

uninstall:
	rm -f "$(DESTDIR)$(LIBDIR)/libcendrulas.a" "$(DESTDIR)$(LIBDIR)/pkgconfig/cendrulas.pc"
	rm -f "$(DESTDIR)$(INCLUDEDIR)/cendrulas.h" "$(DESTDIR)$(INCLUDEDIR)/cendrulas_parties.h"
