# Builds and installs the library for C, and what is called from it:
#
#   make                          examples/build, which proves what has changed
#   make install PREFIX=/usr      what is in out/ as it is; it is built first only where it isn't there
#   make uninstall PREFIX=/usr
#
#   PREFIX=/usr/local             where to; LIBDIR, INCLUDEDIR, BINDIR and MANDIR are below it
#   DESTDIR=                      a folder that stands for the root, for who packs it
#   OUT=out                       where examples/build puts what it makes
#   HWCAPS=x86-64-v3              the processors for which there is a second shared object, below
#                                 LIBDIR/glibc-hwcaps, where the loader of glibc takes it by itself; HWCAPS= makes
#                                 and installs one alone
#   ARCH=x86-64-v2                the processors that the static library is built for: these, or x86-64-v3
PREFIX = /usr/local
LIBDIR = $(PREFIX)/lib
INCLUDEDIR = $(PREFIX)/include
BINDIR = $(PREFIX)/bin
MANDIR = $(PREFIX)/share/man
OUT = out
HWCAPS = x86-64-v3
ARCH = x86-64-v2
# The command goes with its page where `rt run` or the gate has made it.
TOOL = crates/sonic_tool/out/sonic_tool

VERSION := $(shell sed -n 's/^.define JIHLUKA_VERSION "\(.*\)"$$/\1/p' include/jihluka.h)
SONAME := libjihluka.so.$(firstword $(subst ., ,$(VERSION)))
# Each call of the header has a page, which is that of all.
CALLS := ${shell sed -n 's/^[a-z].*[ *]\(jihluka_[a-z0-9_]*\)(.*/\1/p' include/jihluka.h}
PAGES = $(CALLS:%=man3/%.3)

SECOND = $(HWCAPS:%=$(LIBDIR)/glibc-hwcaps/%)

all:
	ARCH=$(ARCH) HWCAPS=$(HWCAPS) examples/build "$(OUT)"

$(OUT)/libjihluka.a:
	ARCH=$(ARCH) HWCAPS=$(HWCAPS) examples/build "$(OUT)"

install: $(OUT)/libjihluka.a
	install -d "$(DESTDIR)$(INCLUDEDIR)" "$(DESTDIR)$(LIBDIR)/pkgconfig" "$(DESTDIR)$(MANDIR)/man1" "$(DESTDIR)$(MANDIR)/man3"
	install -m 644 "$(OUT)/jihluka.h" "$(DESTDIR)$(INCLUDEDIR)"
	install -m 644 "$(OUT)/libjihluka.a" "$(OUT)/$(SONAME)" "$(DESTDIR)$(LIBDIR)"
	ln -sf $(SONAME) "$(DESTDIR)$(LIBDIR)/libjihluka.so"
	for folder in $(SECOND); do install -d "$(DESTDIR)$$folder" && install -m 644 "$(OUT)/glibc-hwcaps/$(HWCAPS)/$(SONAME)" "$(DESTDIR)$$folder" || exit 1; done
	sed 's|@PREFIX@|$(PREFIX)|; s|@LIBDIR@|$(LIBDIR)|; s|@INCLUDEDIR@|$(INCLUDEDIR)|; s|@VERSION@|$(VERSION)|' include/jihluka.pc.in > "$(DESTDIR)$(LIBDIR)/pkgconfig/jihluka.pc"
	chmod 644 "$(DESTDIR)$(LIBDIR)/pkgconfig/jihluka.pc"
	install -m 644 docs/sonic_tool.1 "$(DESTDIR)$(MANDIR)/man1"
	install -m 644 docs/jihluka.3 "$(DESTDIR)$(MANDIR)/man3"
	cd "$(DESTDIR)$(MANDIR)" && for page in $(PAGES); do echo ".so man3/jihluka.3" > $$page && chmod 644 $$page; done
	if [ -x "$(TOOL)" ]; then install -d "$(DESTDIR)$(BINDIR)" && install -m 755 "$(TOOL)" "$(DESTDIR)$(BINDIR)"; fi

uninstall:
	rm -f "$(DESTDIR)$(INCLUDEDIR)/jihluka.h" "$(DESTDIR)$(LIBDIR)/libjihluka.a" "$(DESTDIR)$(LIBDIR)/$(SONAME)" "$(DESTDIR)$(LIBDIR)/libjihluka.so"
	for folder in $(SECOND); do rm -f "$(DESTDIR)$$folder/$(SONAME)"; done
	for folder in $(SECOND) $(HWCAPS:%=$(LIBDIR)/glibc-hwcaps); do rmdir "$(DESTDIR)$$folder" 2> /dev/null || true; done
	rm -f "$(DESTDIR)$(LIBDIR)/pkgconfig/jihluka.pc" "$(DESTDIR)$(BINDIR)/sonic_tool"
	rm -f "$(DESTDIR)$(MANDIR)/man1/sonic_tool.1" "$(DESTDIR)$(MANDIR)/man3/jihluka.3" $(PAGES:%="$(DESTDIR)$(MANDIR)/%")

.PHONY: all install uninstall
