# What a bench computer needs, built and installed. Proving and testing everything is .ci/run.
#   make                             the libraries, the programs and the manual pages
#   make install PREFIX=/usr/local   header, libraries, pkg-config file, programs, manual pages, Python module and examples
#   make uninstall PREFIX=..         takes them away again
#   make check                       tests what was built, and what `make install` and `make deb` make of it
#   make deb                         target/skarrowith_VERSION_amd64.deb, for a bench computer, which needs no prover
#   make clean                       removes everything that was built or proved
# DESTDIR, LIBDIR and PYTHONDIR are as usual. What is missing on this machine is said and not installed. Programs and libraries are
# built on x86-64 and for it.
PREFIX := /usr/local
DESTDIR :=
LIBDIR = $(PREFIX)/lib
PYTHONDIR = $(PREFIX)/lib/python3/dist-packages
VERSION := $(shell sed -n 's/^\#define SKARROWITH_VERSION_TEXT "\(.*\)"/\1/p' include/skarrowith.h)
SONAME := libskarrowith.so.$(firstword $(subst ., ,$(VERSION)))

ARCHIVE := target/staticlib/libskarrowith.a
SHARED := target/shared/libskarrowith.so.$(VERSION)
PROGRAM := target/program/skarrowith
LISTER := crates/list/out/list
PAGES := target/man/skarrowith.3
DEB := target/skarrowith_$(VERSION)_amd64.deb
COMPILER = $(shell bin/machine cc)
FLAGS := -std=c99 -O2 -Wall -Wextra -Wpedantic -Werror -Iinclude

# Where things go, with an absolute prefix however it was given.
AT = $(abspath $(PREFIX))
AT_LIB = $(abspath $(LIBDIR))
AT_PYTHON = $(abspath $(PYTHONDIR))
MAN = $(DESTDIR)$(AT)/share/man
EXAMPLES = $(DESTDIR)$(AT)/share/doc/skarrowith/examples

.PHONY: all install uninstall check deb clean try FORCE

all: $(ARCHIVE) $(SHARED) $(PROGRAM) $(LISTER) $(PAGES)

# host/Makefile knows what the archive is made from, and leaves it as it is where that has not changed.
$(ARCHIVE): FORCE
	@bin/needed $(COMPILER)
	@$(MAKE) -s -C host archive

# The functions of the header are exported, and no others.
$(SHARED): $(ARCHIVE) include/skarrowith.h
	mkdir -p $(@D)
	{ echo '{ global:'; bin/functions | sed 's/$$/;/'; echo 'local: *; };'; } >$(@D)/exports
	$(COMPILER) -shared -Wl,-soname,$(SONAME) -Wl,--version-script=$(@D)/exports -Wl,-z,defs,-z,relro,-z,now,-z,noexecstack -o $@ \
		-Wl,--whole-archive $(ARCHIVE) -Wl,--no-whole-archive

$(PROGRAM): $(ARCHIVE) include/skarrowith.h $(wildcard program/*.[ch])
	mkdir -p $(@D)
	$(COMPILER) $(FLAGS) -static -o $@ program/*.c $(ARCHIVE)

# 01's proved listing program; after the archive, as two rt at a time are one too many.
$(LISTER): crates.txt $(shell find crates -name out -prune -o '(' -name '*.rt' -o -name '*.antt' ')' -print) | $(ARCHIVE)
	bin/prove list
	touch $@

$(PAGES): bin/manual man/functions man/skarrowith.3 include/skarrowith.h
	rm -rf $(@D)
	bin/manual $(@D)

install: all
	install -d $(addprefix $(DESTDIR),$(AT)/include $(AT_LIB)/pkgconfig $(AT)/bin $(AT_PYTHON)/skarrowith) $(MAN)/man1 $(MAN)/man3 $(EXAMPLES)
	install -m 644 include/skarrowith.h $(DESTDIR)$(AT)/include
	install -m 644 $(ARCHIVE) $(SHARED) $(DESTDIR)$(AT_LIB)
	ln -sf $(notdir $(SHARED)) $(DESTDIR)$(AT_LIB)/$(SONAME)
	ln -sf $(SONAME) $(DESTDIR)$(AT_LIB)/libskarrowith.so
	sed -e 's|@PREFIX@|$(AT)|' -e 's|@LIBDIR@|$(AT_LIB)|' -e 's|@VERSION@|$(VERSION)|' host/skarrowith.pc.in >$(DESTDIR)$(AT_LIB)/pkgconfig/skarrowith.pc
	install -m 755 $(PROGRAM) $(DESTDIR)$(AT)/bin/skarrowith
	install -m 755 $(LISTER) $(DESTDIR)$(AT)/bin/skarrowith-list
	install -m 644 man/*.1 $(MAN)/man1
	install -m 644 target/man/*.3 $(MAN)/man3
	install -m 644 python/skarrowith/*.py python/skarrowith/py.typed $(DESTDIR)$(AT_PYTHON)/skarrowith
	install -m 644 examples/bench.c examples/serial.c examples/cjt.c $(EXAMPLES)

uninstall:
	rm -f $(DESTDIR)$(AT)/include/skarrowith.h $(addprefix $(DESTDIR)$(AT_LIB)/libskarrowith,.a .so .so.*) $(DESTDIR)$(AT_LIB)/pkgconfig/skarrowith.pc
	rm -f $(DESTDIR)$(AT)/bin/skarrowith $(DESTDIR)$(AT)/bin/skarrowith-list $(MAN)/man1/skarrowith.1 $(MAN)/man1/skarrowith-list.1
	rm -f $(MAN)/man3/skarrowith.3 $(MAN)/man3/skarrowith_*.3
	rm -rf $(DESTDIR)$(AT_PYTHON)/skarrowith $(DESTDIR)$(AT)/share/doc/skarrowith

check: try
	$(MAKE) -C host all

# What is built for bench software, tried as it is used; a part of .ci/run.
try: all
	bin/exports $(ARCHIVE) $(SHARED)
	bin/pages
	program/test $(abspath $(PROGRAM)) $(shell bin/machine run)
	python/test $(abspath $(SHARED))
	bin/needed python3
	bin/look examples/night-shift.svg
	host/try-install
	host/try-package

deb: $(DEB)

$(DEB): all
	rm -rf target/deb
	$(MAKE) -s install DESTDIR=$(abspath target/deb) PREFIX=/usr LIBDIR=/usr/lib/x86_64-linux-gnu
	bin/package target/deb $(VERSION) $@

clean:
	rm -rf target crates/*/out
