# make: the archive that rt proves and builds (tools/prove shows how far it is), in it the header's inline functions as
# symbols; the shared library made of it; and the program vejgodat.
# make install PREFIX=/where: headers, libraries, the program and its manual page, the Fortran module's source, files for
# pkg-config and CMake.
# make dist: all that, the Python package and the pages in one tarball, for machines without the toolchain.
# docs/PACKAGES.md says how to use each.
PREFIX = /usr/local
INSTALL = install
CFLAGS = -O2
PYTHON = python3

proved = target/staticlib/libvejgodat.a
archive = target/lib/libvejgodat.a
command = target/cli/vejgodat
# not out/, which rt writes
sources := crates.txt $(shell find crates/*/src crates/*/specs crates/*/proofs -type f)
number := $(shell sed -n 's/^\#define VEJGODAT_VERSION //p' include/vejgodat.h)
major := $(shell echo $$(( $(number) / 10000 )))
version := $(major).$(shell echo $$(( $(number) / 100 % 100 )).$$(( $(number) % 100 )))
notice := $(wildcard LICENSE LICENCE COPYING NOTICE)

shared = target/lib/libvejgodat.so
soname = libvejgodat.so.$(major)
# files made for the packages, each from its like in packages/
described = vejgodat.pc vejgodat-shared.pc vejgodat-config.cmake vejgodat-config-version.cmake
module = target/packages/vejgodat.f90

all: $(archive) $(shared) $(command)

# the libraries
$(proved): $(sources)
	@tools/prove vejgodat

$(archive): $(proved) c/symbols.c include/vejgodat.h
	@mkdir -p target/lib
	$(CC) -std=c99 $(CFLAGS) -fPIC -Iinclude -c -o target/lib/symbols.o c/symbols.c
	cp $(proved) $@
	$(AR) r $@ target/lib/symbols.o

# under its soname a second time, and not by a symbolic link, since rt ci refuses one anywhere in the checkout
$(shared): $(archive) packages/exports.map Makefile
	$(CC) -shared -o $@ -Wl,-soname,$(soname) -Wl,--version-script,packages/exports.map -Wl,-Bsymbolic-functions,--gc-sections,-z,defs,-z,text \
	  -Wl,--whole-archive $(archive) -Wl,--no-whole-archive
	ln -f $@ $(@D)/$(soname)

# the program
$(command): $(wildcard cli/*.c cli/*.h) $(archive)
	@mkdir -p target/cli
	$(CC) -std=c99 $(CFLAGS) -Wall -Wextra -Iinclude -o $@ $(filter %.c,$^) $(archive)

# what tells other tools of the libraries
$(described:%=target/packages/%): target/packages/%: packages/%.in include/vejgodat.h Makefile
	@mkdir -p target/packages
	sed 's/@VERSION@/$(version)/; s/@MAJOR@/$(major)/; s/@SONAME@/$(soname)/' $< >$@

$(module): packages/bindings include/vejgodat.h
	@mkdir -p target/packages
	packages/bindings fortran >$@

install: $(archive) $(shared) $(command) $(described:%=target/packages/%) $(module)
	$(INSTALL) -d $(addprefix $(DESTDIR)$(PREFIX)/,bin include lib/pkgconfig lib/cmake/vejgodat share/man/man1 share/vejgodat)
	$(INSTALL) -m 644 include/vejgodat.h include/vejgodat.hpp $(DESTDIR)$(PREFIX)/include
	$(INSTALL) -m 644 $(archive) $(DESTDIR)$(PREFIX)/lib
	$(INSTALL) -m 755 $(shared) $(DESTDIR)$(PREFIX)/lib/libvejgodat.so.$(version)
	ln -sf libvejgodat.so.$(version) $(DESTDIR)$(PREFIX)/lib/$(soname)
	ln -sf $(soname) $(DESTDIR)$(PREFIX)/lib/libvejgodat.so
	$(INSTALL) -m 644 target/packages/vejgodat.pc target/packages/vejgodat-shared.pc $(DESTDIR)$(PREFIX)/lib/pkgconfig
	$(INSTALL) -m 644 target/packages/vejgodat-config.cmake target/packages/vejgodat-config-version.cmake \
	  $(DESTDIR)$(PREFIX)/lib/cmake/vejgodat
	$(INSTALL) -m 644 $(module) $(DESTDIR)$(PREFIX)/share/vejgodat
	$(INSTALL) -m 755 $(command) $(DESTDIR)$(PREFIX)/bin
	$(INSTALL) -m 644 cli/vejgodat.1 $(DESTDIR)$(PREFIX)/share/man/man1
ifneq ($(notice),)
	$(INSTALL) -d $(DESTDIR)$(PREFIX)/share/doc/vejgodat
	$(INSTALL) -m 644 $(notice) $(DESTDIR)$(PREFIX)/share/doc/vejgodat
endif

dist: $(archive) $(shared) $(command)
	PYTHON='$(PYTHON)' packages/dist $(version)

.DELETE_ON_ERROR:
.PHONY: all install dist
