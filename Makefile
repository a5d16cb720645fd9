# Builds and installs the program folgutan over the proved library, which scripts/run makes.
#   make; make install prefix=/usr DESTDIR=...; make uninstall; make clean
# What a builder sets: CC, CFLAGS, CPPFLAGS, LDFLAGS, prefix and the folders below, DESTDIR, PKG_CONFIG, OUT.
CC ?= cc
CFLAGS ?= -O2
PKG_CONFIG ?= pkg-config
INSTALL ?= install

prefix ?= /usr/local
bindir ?= $(prefix)/bin
mandir ?= $(prefix)/share/man
includedir ?= $(prefix)/include
libdir ?= $(prefix)/lib
docdir ?= $(prefix)/share/doc/folgutan

OUT ?= target/tool
LIBRARY := target/staticlib/libfolgutan.a
PROGRAM := $(OUT)/folgutan
SOURCES := $(sort $(wildcard tool/*.c))
OBJECTS := $(SOURCES:tool/%.c=$(OUT)/%.o)
VERSION := $(shell sed -n 's/.*FOLGUTAN_VERSION "\(.*\)".*/\1/p' tool/version.h)
LIBS := $(shell $(PKG_CONFIG) --libs libpng libturbojpeg 2>/dev/null || echo -lpng -lturbojpeg) -lm
HEADERS := $(shell $(PKG_CONFIG) --cflags libpng libturbojpeg 2>/dev/null)

.PHONY: all install uninstall clean
.DELETE_ON_ERROR:

all: $(PROGRAM) $(OUT)/folgutan.pc

$(LIBRARY):
	@echo "make: $@ is missing: scripts/run proves and builds it, by the Rattle toolchain" >&2
	@false

$(PROGRAM): $(LIBRARY) $(OBJECTS)
	$(CC) $(CFLAGS) $(LDFLAGS) -o $@ $(OBJECTS) $(LIBRARY) $(LIBS)

$(OUT)/%.o: tool/%.c Makefile
	@mkdir -p $(OUT)
	$(CC) -std=c11 -Wall -Wextra -Iinclude $(HEADERS) $(CPPFLAGS) $(CFLAGS) -MMD -MP -c -o $@ $<

# Holds the folders of this very call.
.PHONY: $(OUT)/folgutan.pc
$(OUT)/folgutan.pc: tool/folgutan.pc.in tool/version.h
	@mkdir -p $(OUT)
	sed -e 's|@prefix@|$(prefix)|' -e 's|@includedir@|$(includedir)|' -e 's|@libdir@|$(libdir)|' -e 's|@version@|$(VERSION)|' $< >$@

install: all
	$(INSTALL) -d "$(DESTDIR)$(bindir)" "$(DESTDIR)$(mandir)/man1" "$(DESTDIR)$(includedir)" "$(DESTDIR)$(libdir)/pkgconfig" "$(DESTDIR)$(docdir)"
	$(INSTALL) -m 755 $(PROGRAM) "$(DESTDIR)$(bindir)/folgutan"
	$(INSTALL) -m 644 tool/folgutan.1 "$(DESTDIR)$(mandir)/man1/folgutan.1"
	$(INSTALL) -m 644 include/folgutan.h "$(DESTDIR)$(includedir)/folgutan.h"
	$(INSTALL) -m 644 $(LIBRARY) "$(DESTDIR)$(libdir)/libfolgutan.a"
	$(INSTALL) -m 644 $(OUT)/folgutan.pc "$(DESTDIR)$(libdir)/pkgconfig/folgutan.pc"
	$(INSTALL) -m 644 NOTICE "$(DESTDIR)$(docdir)/copyright"

uninstall:
	rm -f "$(DESTDIR)$(bindir)/folgutan" "$(DESTDIR)$(mandir)/man1/folgutan.1" "$(DESTDIR)$(includedir)/folgutan.h"
	rm -f "$(DESTDIR)$(libdir)/libfolgutan.a" "$(DESTDIR)$(libdir)/pkgconfig/folgutan.pc" "$(DESTDIR)$(docdir)/copyright"

clean:
	rm -rf $(OUT)

-include $(OBJECTS:.o=.d)
