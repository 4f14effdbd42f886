# The host's C library: builds it, installs it with its header and its pkg-config file, removes it.
#
#   make                                the library, target/staticlib/librpmc_host.a; needs the Rattle kit's rt
#   make install PREFIX=/usr/local      where it is to be used; DESTDIR=/stage stands before each path
#   make uninstall PREFIX=/usr/local    removes the three files again

PREFIX = /usr/local
INCLUDEDIR = $(PREFIX)/include
LIBDIR = $(PREFIX)/lib
PKGCONFIGDIR = $(LIBDIR)/pkgconfig
DESTDIR =
VERSION = 1.0.0

library := target/staticlib/librpmc_host.a
built := crates/rpmc_host_c/out/librpmc_host_c.a
sources := crates.txt $(shell find crates -path 'crates/*/out' -prune -o \( -name '*.rt' -o -name '*.antt' \) -print)

header_place = $(DESTDIR)$(INCLUDEDIR)/rpmc_host.h
library_place = $(DESTDIR)$(LIBDIR)/librpmc_host.a
pc_place = $(DESTDIR)$(PKGCONFIGDIR)/rpmc_host.pc

.PHONY: all install uninstall

all: $(library)

# rt names the archive after its crate, the thin one over crates/rpmc_host, and rt ci clears its folder away: so what is installed
# is a copy
$(library): $(sources)
	cd crates/rpmc_host_c && rt lib
	mkdir -p $(@D)
	cp $(built) $@

install: $(library)
	install -d "$(DESTDIR)$(INCLUDEDIR)" "$(DESTDIR)$(LIBDIR)" "$(DESTDIR)$(PKGCONFIGDIR)"
	install -m 644 include/rpmc_host.h "$(header_place)"
	install -m 644 $(library) "$(library_place)"
	sed -e 's|@PREFIX@|$(PREFIX)|' -e 's|@VERSION@|$(VERSION)|' \
	    -e 's|@INCLUDEDIR@|$(INCLUDEDIR:$(PREFIX)/%=$${prefix}/%)|' \
	    -e 's|@LIBDIR@|$(LIBDIR:$(PREFIX)/%=$${prefix}/%)|' rpmc_host.pc.in >"$(pc_place)"
	chmod 644 "$(pc_place)"

uninstall:
	rm -f "$(header_place)" "$(library_place)" "$(pc_place)"
