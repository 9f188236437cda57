# Builds and installs the archive for C and other languages, with its header and a file for pkg-config.
#
#   make                                     proves the crates that the archive is made of and writes it, where
#                                            there is none or where a crate is newer
#   make install PREFIX=/some/dir            installs; PREFIX is /usr/local unless said
#   make install DESTDIR=/stage PREFIX=/usr  the same into a staging folder
#   make uninstall PREFIX=/some/dir          removes the three files again
#   make check-version                       header, its numbers and Rust crate: one version
#   make check-install                       installs below target/, compiles the C example with the flags
#                                            of pkg-config alone, and holds what it prints to its head; the
#                                            archive needs no more of the C library than the header says
#   make stack                               measures how much stack the calls take
#
# The version stands in include/pheasantry.h; pheasantry.pc gets it from there.

PREFIX = /usr/local
INCLUDEDIR = $(PREFIX)/include
LIBDIR = $(PREFIX)/lib
PKGCONFIGDIR = $(LIBDIR)/pkgconfig
DESTDIR =

CC = cc
CFLAGS = -O2 -Wall -Wextra
INSTALL = install
PKG_CONFIG = pkg-config
RT = rt

archive = target/staticlib/libpheasantry.a
header = include/pheasantry.h
sources := crates.txt $(shell find crates -name out -prune -o \( -name '*.rt' -o -name '*.antt' \) -print)

version := $(shell sed -n 's/^.define PHEASANTRY_VERSION "\(.*\)"/\1/p' $(header))
numbers := $(shell sed -n 's/^.define PHEASANTRY_VERSION_[A-Z]* //p' $(header) | paste -s -d . -)
crate := $(shell sed -n 's/^version = "\(.*\)"/\1/p' bindings/rust/Cargo.toml)

.PHONY: all archive install uninstall check-version check-install stack

all: archive

archive: $(archive)

# It is to run on every x86-64 processor, where the kit by itself builds for x86-64-v2.
$(archive): $(sources)
	cd crates/pheasantry && $(RT) lib --cpu=x86-64
	$(INSTALL) -d $(@D)
	$(INSTALL) -m 644 crates/pheasantry/out/libpheasantry.a $@

check-version:
	@test '$(numbers)' = '$(version)' || { echo '$(header) says $(version) and $(numbers)'; exit 1; }
	@test '$(crate)' = '$(version)' || { echo '$(header) says $(version), Cargo.toml $(crate)'; exit 1; }

install: $(archive) check-version
	@case '$(PREFIX)' in /*) ;; *) echo 'PREFIX must begin with /'; exit 1;; esac
	$(INSTALL) -d '$(DESTDIR)$(INCLUDEDIR)' '$(DESTDIR)$(LIBDIR)' '$(DESTDIR)$(PKGCONFIGDIR)'
	$(INSTALL) -m 644 $(header) '$(DESTDIR)$(INCLUDEDIR)/pheasantry.h'
	$(INSTALL) -m 644 $(archive) '$(DESTDIR)$(LIBDIR)/libpheasantry.a'
	sed -e 's|@PREFIX@|$(PREFIX)|' -e 's|@VERSION@|$(version)|' \
	    -e 's|@INCLUDEDIR@|$(INCLUDEDIR:$(PREFIX)/%=$${prefix}/%)|' \
	    -e 's|@LIBDIR@|$(LIBDIR:$(PREFIX)/%=$${prefix}/%)|' \
	    bindings/c/pheasantry.pc.in >'$(DESTDIR)$(PKGCONFIGDIR)/pheasantry.pc'
	chmod 644 '$(DESTDIR)$(PKGCONFIGDIR)/pheasantry.pc'

uninstall:
	rm -f '$(DESTDIR)$(INCLUDEDIR)/pheasantry.h' '$(DESTDIR)$(LIBDIR)/libpheasantry.a' \
	    '$(DESTDIR)$(PKGCONFIGDIR)/pheasantry.pc'

# The second half installs the same way into a staging folder, where the paths of the file for pkg-config
# are those without it, and removes everything again.
tried = $(CURDIR)/target/check-install
here = DESTDIR= PREFIX='$(tried)'
staged = DESTDIR='$(tried)/stage' PREFIX=/usr
flags = PKG_CONFIG_PATH='$(tried)/lib/pkgconfig' $(PKG_CONFIG)

check-install: $(archive)
	test "$$(nm -u $(archive) | sed -n 's/^ *U //p' | sort | paste -s -d ' ' -)" = 'memcpy memmove memset'
	rm -rf '$(tried)'
	$(MAKE) install $(here)
	test "$$($(flags) --modversion pheasantry)" = '$(version)'
	$(CC) -std=c99 $(CFLAGS) bindings/c/example.c $$($(flags) --cflags --libs pheasantry) -o '$(tried)/example'
	sed -n '/^ \* prints$$/,/^ \*\/$$/s/^ \*   //p' bindings/c/example.c >'$(tried)/expected'
	'$(tried)/example' | diff '$(tried)/expected' -
	$(MAKE) uninstall $(here)
	$(MAKE) install $(staged)
	grep -qx 'prefix=/usr' '$(tried)/stage/usr/lib/pkgconfig/pheasantry.pc'
	$(MAKE) uninstall $(staged)
	test -z "$$(find '$(tried)' -name '*pheasantry*')"

stack: $(archive)
	$(CC) -std=c99 $(CFLAGS) -Iinclude bindings/c/stack.c $(archive) -o target/stack
	target/stack
