# The library and the recovery program, for C hosts. The Rattle kit's command rt proves and compiles them; the rest needs make, a C compiler and install.
#
#     make                  build/: the archive, the shared library and the recovery program
#     make TARGET=aarch64   build/aarch64/: archive and shared library for phones (c/README.md, "Phones"); TARGET goes with check and install too
#     make check            the tests from C: c/test
#     make install          to PREFIX and the folders below it, all of them below DESTDIR if that is set; make uninstall takes it away again

TARGET = x86_64
PREFIX = /usr/local
LIBDIR = $(PREFIX)/lib
INCLUDEDIR = $(PREFIX)/include
BINDIR = $(PREFIX)/bin
LIBEXECDIR = $(PREFIX)/libexec
MANDIR = $(PREFIX)/share/man

# The kit's programs are for x86-64 alone.
ifeq ($(TARGET),x86_64)
into = build
test = c/test
program = build/recover
else ifeq ($(TARGET),aarch64)
into = build/aarch64
test = c/test-aarch64
else
$(error TARGET is x86_64 or aarch64)
endif

# On another processor Debian's cross compiler links the shared library.
ifeq ($(origin CC)$(filter $(TARGET),$(shell uname -m)),default)
CC = $(TARGET)-linux-gnu-gcc
endif

# The version is the header's.
number = $(or $(shell sed -n 's/^.define POUCH_VERSION_$(1) //p' c/pouchrattle.h),$(error c/pouchrattle.h has no POUCH_VERSION_$(1)))
MAJOR := $(call number,MAJOR)
VERSION := $(MAJOR).$(call number,MINOR).$(call number,PATCH)

archive = libpouchrattle.a
link = libpouchrattle.so
soname = $(link).$(MAJOR)
shared = $(link).$(VERSION)
headers = c/pouchrattle.h c/pouch_bus.h
sources = crates.txt $(shell find crates -type f \( -name '*.rt' -o -name '*.antt' \) -not -path '*/must-fail/*' -not -path '*/out/*')

all: $(into)/$(archive) $(into)/$(shared) $(program)

# What stands in build/ is installed without rt, also where target/ is gone.
.SECONDARY: target/staticlib/libhost.a target/bin/recover
need_rt = $(if $(shell command -v rt 2>/dev/null),,$(error the Rattle kit is not here: its command rt must be on the PATH (README.md, 'What it needs')))

target/staticlib/libhost.a: $(sources)
	$(need_rt)@tests/prove staticlib host

target/bin/recover: $(sources)
	$(need_rt)@tests/prove check recover
	@touch -c $@

build/$(archive): target/staticlib/libhost.a
	mkdir -p build
	cp $< $@

build/recover: target/bin/recover
	mkdir -p build
	cp $< $@

# Proves crate host_c too, and leaves its archive.
build/aarch64/$(archive): $(sources) c/aarch64 c/plain.awk
	$(need_rt)@c/aarch64

# The archive as a whole, compiled to be moved, with the entries' names alone for others to see. It needs no other library: memcpy and memset are the program's.
%/$(shared): %/$(archive) c/pouchrattle.h
	printf 'POUCHRATTLE_$(MAJOR) { global: pouch_*; local: *; };\n' >$*/pouchrattle.map
	$(CC) -shared -nostdlib -Wl,-soname,$(soname) -Wl,--version-script=$*/pouchrattle.map -Wl,-z,relro,-z,now,-z,noexecstack $(LDFLAGS) \
	    -Wl,--whole-archive $< -Wl,--no-whole-archive -o $@

# What is installed, without DESTDIR.
installed = $(addprefix $(LIBDIR)/,$(archive) $(shared) $(soname) $(link) pkgconfig/pouchrattle.pc) \
    $(addprefix $(LIBDIR)/cmake/pouchrattle/,pouchrattleConfig.cmake pouchrattleConfigVersion.cmake) $(addprefix $(INCLUDEDIR)/,$(notdir $(headers))) \
    $(if $(program),$(BINDIR)/pouch-recover $(LIBEXECDIR)/pouchrattle/recover $(MANDIR)/man1/pouch-recover.1)
own = $(LIBDIR)/cmake/pouchrattle $(LIBEXECDIR)/pouchrattle
below = $(addprefix '$(DESTDIR)',$(1))

# $(call filled,FILE,TO,MODE): the file with the folders and the version in place. The CMake package finds the headers from where it stands.
from_prefix = $(patsubst $(PREFIX)/%,$${prefix}/%,$(1))
filled = sed -e 's|@PREFIX@|$(PREFIX)|' -e 's|@LIBDIR@|$(call from_prefix,$(LIBDIR))|' -e 's|@INCLUDEDIR@|$(call from_prefix,$(INCLUDEDIR))|' \
    -e 's|@TO_INCLUDEDIR@|$(shell realpath -ms --relative-to=$(LIBDIR)/cmake/pouchrattle $(INCLUDEDIR))|' -e 's|@LIBEXECDIR@|$(LIBEXECDIR)/pouchrattle|' \
    -e 's|@VERSION@|$(VERSION)|' -e 's|@MAJOR@|$(MAJOR)|' $(1) >$(call below,$(2)) && chmod $(3) $(call below,$(2))

install: all
	install -d $(call below,$(sort $(dir $(installed))))
	install -m 644 $(into)/$(archive) $(into)/$(shared) $(call below,$(LIBDIR))
	ln -sf $(shared) $(call below,$(LIBDIR)/$(soname))
	ln -sf $(soname) $(call below,$(LIBDIR)/$(link))
	install -m 644 $(headers) $(call below,$(INCLUDEDIR))
	@$(call filled,c/pouchrattle.pc.in,$(LIBDIR)/pkgconfig/pouchrattle.pc,644)
	@$(call filled,c/pouchrattleConfig.cmake.in,$(LIBDIR)/cmake/pouchrattle/pouchrattleConfig.cmake,644)
	@$(call filled,c/pouchrattleConfigVersion.cmake.in,$(LIBDIR)/cmake/pouchrattle/pouchrattleConfigVersion.cmake,644)
ifneq ($(program),)
	install -m 755 $(program) $(call below,$(LIBEXECDIR)/pouchrattle)
	@$(call filled,c/pouch-recover,$(BINDIR)/pouch-recover,755)
	@$(call filled,c/pouch-recover.1,$(MANDIR)/man1/pouch-recover.1,644)
endif
	$(ldconfig)

uninstall:
	rm -f $(call below,$(installed))
	rmdir $(call below,$(own)) 2>/dev/null || true
	$(ldconfig)

# The loader learns of a shared library that came or went. A packager's tools see to that themselves, and who is not root cannot.
ldconfig = $(if $(DESTDIR),,[ "$$(id -u)" != 0 ] || PATH="$$PATH:/sbin:/usr/sbin" ldconfig || true)

check:
	$(test)

clean:
	rm -rf build

.PHONY: all install uninstall check clean
.NOTPARALLEL:
