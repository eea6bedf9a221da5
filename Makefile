# Builds and installs the program cmk and the library libcmk.
#
#   make                                    proves and builds the program, libcmk.a and libcmk.so
#   make check                              runs the tests, and proves nothing
#   make install PREFIX=/usr/local DESTDIR= installs them, with the header, the man pages, the completions and cmk.pc
#   make uninstall PREFIX= DESTDIR=         removes all of these
#   make dist, make deb, make wheel         write a release's archive, its packages for Debian, its wheel for Python into dist/
#   make verify DIST=FILE                   proves everything again, and compares a file of a release, or its SHA256SUMS, with what is made
#   make verify DIST=FILE CACHE=yes         compares without proving again what the cache has
#
# With BUILD= the program and libcmk_c.a must be built already; nothing is proved. The merge gate is .ci/run.

PREFIX = /usr/local
DESTDIR =
BINDIR = $(PREFIX)/bin
LIBDIR = $(PREFIX)/lib
INCLUDEDIR = $(PREFIX)/include
MANDIR = $(PREFIX)/share/man
BASHDIR = $(PREFIX)/share/bash-completion/completions
ZSHDIR = $(PREFIX)/share/zsh/site-functions
FISHDIR = $(PREFIX)/share/fish/vendor_completions.d
CC = cc
AR = ar
INSTALL = install
BUILD = all
CACHE =

VERSION := $(shell sed -n 's/^.define CMK_VERSION "\(.*\)"$$/\1/p' include/cmk.h)
SONAME := libcmk.so.$(firstword $(subst ., ,$(VERSION)))
SHARED := libcmk.so.$(VERSION)
# The three functions for memory that the library calls, from the kit of rt.
KIT := $(shell rt=$$(command -v rt || echo /opt/rattle/bin/rt); dirname "$$(dirname "$$(readlink -f "$$rt")")")
HEAP := $(KIT)/c/liblibc_c.a
PROGRAM := crates/cmk/out/cmk
CRATE := crates/cmk_c/out/libcmk_c.a
OUT := out
RECORD = $(OUT)/record

# A path as one word of the shell, and the same of a file that is installed.
quoted = '$(subst ','\'',$(1))'
installed = $(call quoted,$(DESTDIR)$(1))
ifneq (,$(filter ~%,$(firstword $(PREFIX)) $(firstword $(DESTDIR))))
$(error ~ isn't expanded in PREFIX and DESTDIR: write $$HOME)
endif

.PHONY: all proved check install uninstall record dist deb wheel verify clean
.NOTPARALLEL:

all: $(OUT)/libcmk.a $(OUT)/$(SHARED) $(OUT)/cmk.pc
	@$(if $(BUILD),tools/build.py --summary)

# Only the build knows whether the program and the crate's library are current, so each make asks it, and links the libraries again. If
# nothing has changed, that takes a second.
proved:
	@tools/build.py $(if $(BUILD),,--built)

# The cmk_free of the libraries, which is the header's.
$(OUT)/cmk_free.o: include/cmk_free.c include/cmk.h
	@mkdir -p $(OUT)
	$(CC) -std=c99 -O2 -fPIC -fno-ident -c -o $@ $<

# One archive of the crate, cmk_free and the functions for memory.
$(OUT)/libcmk.a: proved $(OUT)/cmk_free.o
	@mkdir -p $(OUT)/objects
	cd $(OUT)/objects && rm -f *.o && $(AR) x "$$OLDPWD/$(CRATE)" && $(AR) x $(call quoted,$(HEAP)) && cp ../cmk_free.o .
	rm -f $@
	$(AR) rcs $@ $(OUT)/objects/*.o
	rm -r $(OUT)/objects

# Only the exports are visible from outside.
$(OUT)/$(SHARED): proved $(OUT)/cmk_free.o
	@mkdir -p $(OUT)
	$(CC) -shared -o $@ -Wl,-soname,$(SONAME) -Wl,--whole-archive $(CRATE) -Wl,--no-whole-archive $(OUT)/cmk_free.o \
		-Wl,--exclude-libs,liblibc_c.a $(call quoted,$(HEAP)) -Wl,--no-undefined -Wl,-z,relro,-z,now $(LDFLAGS)

$(OUT)/cmk.pc: cmk.pc.in include/cmk.h FORCE
	@mkdir -p $(OUT)
	@printf '%s\n' $(call quoted,prefix=$(PREFIX)) $(call quoted,libdir=$(LIBDIR)) $(call quoted,includedir=$(INCLUDEDIR)) >$@
	@sed 's|@VERSION@|$(VERSION)|' cmk.pc.in >>$@

FORCE:

check:
	@tools/check

install: all
	$(INSTALL) -d $(call installed,$(BINDIR)) $(call installed,$(INCLUDEDIR)) $(call installed,$(LIBDIR)/pkgconfig)
	$(INSTALL) -d $(call installed,$(MANDIR)/man1) $(call installed,$(MANDIR)/man3)
	$(INSTALL) -d $(call installed,$(BASHDIR)) $(call installed,$(ZSHDIR)) $(call installed,$(FISHDIR))
	$(INSTALL) -m 755 $(PROGRAM) $(call installed,$(BINDIR)/cmk)
	$(INSTALL) -m 644 include/cmk.h $(call installed,$(INCLUDEDIR)/cmk.h)
	$(INSTALL) -m 644 $(OUT)/libcmk.a $(call installed,$(LIBDIR)/libcmk.a)
	$(INSTALL) -m 755 $(OUT)/$(SHARED) $(call installed,$(LIBDIR)/$(SHARED))
	ln -sf $(SHARED) $(call installed,$(LIBDIR)/$(SONAME))
	ln -sf $(SONAME) $(call installed,$(LIBDIR)/libcmk.so)
	$(INSTALL) -m 644 $(OUT)/cmk.pc $(call installed,$(LIBDIR)/pkgconfig/cmk.pc)
	$(INSTALL) -m 644 man/cmk.1 $(call installed,$(MANDIR)/man1/cmk.1)
	$(INSTALL) -m 644 man/cmk.3 $(call installed,$(MANDIR)/man3/cmk.3)
	$(INSTALL) -m 644 completions/cmk.bash $(call installed,$(BASHDIR)/cmk)
	$(INSTALL) -m 644 completions/_cmk $(call installed,$(ZSHDIR)/_cmk)
	$(INSTALL) -m 644 completions/cmk.fish $(call installed,$(FISHDIR)/cmk.fish)

uninstall:
	rm -f $(call installed,$(BINDIR)/cmk) $(call installed,$(INCLUDEDIR)/cmk.h) $(call installed,$(LIBDIR)/pkgconfig/cmk.pc)
	rm -f $(call installed,$(LIBDIR)/libcmk.a) $(call installed,$(LIBDIR)/libcmk.so)
	rm -f $(call installed,$(LIBDIR)/$(SONAME)) $(call installed,$(LIBDIR)/$(SHARED))
	rm -f $(call installed,$(MANDIR)/man1/cmk.1) $(call installed,$(MANDIR)/man3/cmk.3)
	rm -f $(call installed,$(BASHDIR)/cmk) $(call installed,$(ZSHDIR)/_cmk) $(call installed,$(FISHDIR)/cmk.fish)

# What the prover said of each crate, and the checksums of what is built, for PROOF.txt.
recorded = mkdir -p $(OUT) && $(if $(BUILD),tools/build.py --record $(RECORD) $(1),test -r $(RECORD))
record:
	@$(call recorded)

dist deb wheel: record
	@packaging/release.py --record $(RECORD) $@

verify:
	@test -r $(call quoted,$(DIST)) || { echo 'make verify needs DIST=FILE: a file of a release, or its SHA256SUMS' >&2; exit 2; }
	@$(if $(filter yes,$(CACHE)),echo 'CACHE=yes: what the cache has is not proved again')
	@$(call recorded,$(if $(filter yes,$(CACHE)),,--anew))
	@packaging/release.py --record $(RECORD) verify $(call quoted,$(DIST))

# The proved program and library stay.
clean:
	rm -rf $(OUT) dist
