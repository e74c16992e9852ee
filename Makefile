# Installs what bin/hosts has made in hosts/out, and removes it again. Nothing is compiled here.
#
#   make install                      under /usr/local
#   make install PREFIX=/opt/exprlang DESTDIR=/tmp/root
#   make uninstall                    with the same words
#
# bin/package installs into a folder by these rules, and packs what is in it then.
PREFIX = /usr/local
BINDIR = $(PREFIX)/bin
LIBDIR = $(PREFIX)/lib
INCLUDEDIR = $(PREFIX)/include
MANDIR = $(PREFIX)/share/man
DOCDIR = $(PREFIX)/share/doc/exprlang
# Where the file for pkg-config finds the others: $${pcfiledir}/../.. where the whole may be moved.
PC_PREFIX = $(PREFIX)
PC_LIBDIR = $(LIBDIR)
PC_INCLUDEDIR = $(INCLUDEDIR)
DESTDIR =
OUT = hosts/out
INSTALL = install

VERSION := $(shell cat VERSION)
KNOWN = exprlang expr_lines expr_check
PROGRAMS = $(filter $(KNOWN),$(notdir $(wildcard $(OUT)/bin/*)))
PAPERS = $(notdir $(wildcard $(OUT)/doc/*))
CMAKEDIR = $(LIBDIR)/cmake/exprlang
TO_INCLUDEDIR = $(shell realpath -ms --relative-to='$(CMAKEDIR)' '$(INCLUDEDIR)')
WRITTEN = sed -e 's|@VERSION@|$(VERSION)|' -e 's|@PREFIX@|$(PC_PREFIX)|' -e 's|@LIBDIR@|$(PC_LIBDIR)|' \
	-e 's|@INCLUDEDIR@|$(PC_INCLUDEDIR)|' -e 's|@TO_INCLUDEDIR@|$(TO_INCLUDEDIR)|'

.PHONY: help install uninstall
help:
	@sed -n 's/^# \{0,1\}//p;/^$$/q' Makefile | head -n 7

install:
	@test -f $(OUT)/lib/libexprlang.a -a -f $(OUT)/lib/libexprlang.so.0 -a -d $(OUT)/doc || { \
		echo 'make: $(OUT) has no libraries: bin/hosts makes them, after .ci/run or bin/quick' >&2; exit 1; }
	$(INSTALL) -d '$(DESTDIR)$(LIBDIR)/pkgconfig' '$(DESTDIR)$(CMAKEDIR)' '$(DESTDIR)$(INCLUDEDIR)'
	$(INSTALL) -d '$(DESTDIR)$(MANDIR)/man3' '$(DESTDIR)$(DOCDIR)'
	$(INSTALL) -m 644 $(OUT)/lib/libexprlang.so.0 $(OUT)/lib/libexprlang.a '$(DESTDIR)$(LIBDIR)'
	ln -sf libexprlang.so.0 '$(DESTDIR)$(LIBDIR)/libexprlang.so'
	$(INSTALL) -m 644 hosts/c/exprlang.h '$(DESTDIR)$(INCLUDEDIR)'
	$(WRITTEN) hosts/c/exprlang.pc.in >'$(DESTDIR)$(LIBDIR)/pkgconfig/exprlang.pc'
	for it in exprlang-config exprlang-config-version; do \
		$(WRITTEN) hosts/package/cmake/$$it.cmake.in >'$(DESTDIR)$(CMAKEDIR)'/$$it.cmake || exit; done
	chmod 644 '$(DESTDIR)$(LIBDIR)/pkgconfig/exprlang.pc' '$(DESTDIR)$(CMAKEDIR)'/*.cmake
	$(INSTALL) -m 644 hosts/package/man/exprlang.3 '$(DESTDIR)$(MANDIR)/man3'
	for it in $(PROGRAMS); do \
		$(INSTALL) -D -m 755 $(OUT)/bin/$$it '$(DESTDIR)$(BINDIR)'/$$it && \
		$(INSTALL) -D -m 644 hosts/package/man/$$it.1 '$(DESTDIR)$(MANDIR)'/man1/$$it.1 || exit; done
	for it in $(PAPERS); do $(INSTALL) -m 644 $(OUT)/doc/$$it '$(DESTDIR)$(DOCDIR)' || exit; done

uninstall:
	rm -f '$(DESTDIR)$(LIBDIR)/libexprlang.so.0' '$(DESTDIR)$(LIBDIR)/libexprlang.so' '$(DESTDIR)$(LIBDIR)/libexprlang.a'
	rm -f '$(DESTDIR)$(INCLUDEDIR)/exprlang.h' '$(DESTDIR)$(LIBDIR)/pkgconfig/exprlang.pc'
	rm -f '$(DESTDIR)$(MANDIR)/man3/exprlang.3'
	for it in $(KNOWN); do rm -f '$(DESTDIR)$(BINDIR)'/$$it '$(DESTDIR)$(MANDIR)'/man1/$$it.1; done
	rm -rf '$(DESTDIR)$(CMAKEDIR)' '$(DESTDIR)$(DOCDIR)'
