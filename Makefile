# tmchan: the program, and the codec as a library for C (include/tmchan.h).
#
#   make                 program and library: out/tmchan, out/libtmchan.a, out/libtmchan.so and out/tmchan.pc
#   make check           runs every test that needs no prover over these (tests/check)
#   make install         program and library, with the header, the manual pages and the completions of bash, zsh and
#                        fish, below PREFIX=/usr/local (and below DESTDIR, where that is set)
#   make uninstall       removes what that put there, with the same PREFIX
#   make program, lib, install-program, install-lib, uninstall-program, uninstall-lib      each alone
#   make wheel           the Python package with the library in it, in dist/ (tools/wheel)
#   make c               the C in c/, made anew of the modules of LLVM that are proved (tools/make-c)
#   make web             the page, its modules for WebAssembly, and the program for Node, in out/web/ (docs/WEB.md)
#   make dist            what is published, in dist/ (tools/dist)
#
# PROVED=1 asks for the proved build: `rt`, the command of the Rattle kit, proves each crate that changed before it is
# compiled (make/crates.mk). It is the default where `rt` is on the PATH, or has built something here before: so who has
# the kit never gets another build unawares, and what is built and not older than its sources is installed without `rt`.
# With PROVED=0, the default elsewhere, the same stands in out/c: compiled from the C in c/, which was made of the
# proved code, and is not proved itself (make/c.mk). What publishes, or tests what is published, says PROVED=1.
#
# TARGET is x86_64-unknown-linux-gnu (the default) or aarch64-unknown-linux-gnu, and CPU one of `rattle build --help`.
# For x86-64 with no CPU all runs on x86-64-v2, and the decoding of the inner code is there for x86-64-v3 too, which is
# chosen where it pays. What is built for any other choice stands in out/aarch64, or in out/CPU. With PROVED=0 TARGET is
# this machine, or any other for which there is a gcc, and CPU what that takes by -march, or on other processors -mcpu.
#
# A C compiler and binutils are needed besides. What is missing is named, with Debian's package.

PREFIX = /usr/local
# Where libraries are put below PREFIX, and what tmchan.pc has for PREFIX
LIBDIR = lib
PC_PREFIX = $(PREFIX)
TARGET = $(NATIVE)-unknown-linux-gnu
CPU =

PROVED ?= $(or $(shell command -v rt 2>/dev/null),$(wildcard out/*.below))
override PROVED := $(if $(filter-out 0 no,$(PROVED)),1)
MACHINE := $(shell uname -m)
NATIVE = $(if $(PROVED),x86_64,$(MACHINE))

# The header says the version, and nothing else here does.
VERSION := $(shell sed -nE 's/^\#define TMCHAN_VERSION 0x(..)(..)(..)$$/0x\1 0x\2 0x\3/p' include/tmchan.h | \
    xargs printf '%d.%d.%d')
SONAME = libtmchan.so.$(basename $(VERSION))

PROCESSOR = $(firstword $(subst -, ,$(TARGET)))
OUT = out$(if $(PROVED),,/c)$(addprefix /,$(or $(CPU),$(filter-out $(NATIVE),$(PROCESSOR))))
OBJECTS = $(OUT)/objects

# $(call need,COMMAND,PACKAGE) is nothing where the command is there; where not, make ends and says so.
need = $(if $(shell command -v $1 2>/dev/null),,$(error $@ needs the command $1, of Debian's package $2))
need_kit = $(if $(shell command -v rt 2>/dev/null),,$(error $@ needs the command rt of the Rattle kit, which no \
    distribution has: CONTRIBUTING.md, "The kit", says whom to ask for it))$(call need,python3,python3)

# The compiler and binutils of a target that this machine is not
CROSS := $(if $(filter-out $(MACHINE),$(PROCESSOR)),$(PROCESSOR)-linux-gnu-)
ifeq ($(origin CC),default)
CC = $(CROSS)gcc
endif
LIBC = libc6-dev$(if $(CROSS),-$(PROCESSOR:aarch64=arm64)-cross)
has_libc = $(shell $(CC) -E -include stdlib.h -x c /dev/null >/dev/null 2>&1 && echo yes)
need_cc = $(call need,$(firstword $(CC)),gcc$(addprefix -,$(CROSS:-=)))$(if $(has_libc),,$(error $@ needs the headers \
    of the C library, of Debian's package $(LIBC)))
need_binutils = $(call need,$(CROSS)objcopy,binutils$(addprefix -,$(CROSS:-=)))

CFLAGS = -O2 -Wall -Wextra
COMPILE = $(need_cc)$(CC) -std=gnu11 $(CFLAGS) -fPIC -Iinclude
LINK = $(need_cc)$(CC) -Wl,-z,noexecstack -Wl,-z,relro -Wl,-z,now
LD = $(need_binutils)$(CROSS)ld
OBJCOPY = $(need_binutils)$(CROSS)objcopy
AR = $(need_binutils)$(CROSS)ar

MAN = share/man
BASH_COMPLETIONS = share/bash-completion/completions
ZSH_COMPLETIONS = share/zsh/site-functions
FISH_COMPLETIONS = share/fish/vendor_completions.d

.PHONY: all lib program rows check c web dist wheel version folder
.PHONY: install install-program install-lib uninstall uninstall-program uninstall-lib
.DELETE_ON_ERROR:
.SECONDARY:

all: program lib
	@echo '$(OUT)/tmchan and $(OUT)/libtmchan.so: $(BUILT)'

program: $(OUT)/tmchan

lib: $(OUT)/libtmchan.a $(OUT)/libtmchan.so $(OUT)/tmchan.pc

check: all
	$(call need,python3,python3)tests/check $(OUT)

version:
	@echo $(VERSION)

# Where program and library are built
folder:
	@echo $(OUT)

$(OBJECTS):
	mkdir -p $@

# The calls of the header
CALLS := $(shell sed -nE 's/^(u?int[0-9]+_t|void) (tmchan_[a-z_]+)[^a-z_].*/\2/p' include/tmchan.h)
kept = $(foreach it,$1,--keep-global-symbol=$(it))

# Of which objects the program is linked (PROGRAM), and the library (LIBRARY): all of that is one object, in which
# nothing but the calls has a name that others see. BUILT is what `make` says of both at its end.
PLATFORM = arguments errno heap streams
objects = $(patsubst %,$(OBJECTS)/%.o,$1)
ifdef PROVED
include make/crates.mk make/web.mk
else
include make/c.mk
endif

$(OBJECTS)/%.o: platform/%.c platform/platform.h include/tmchan.h | $(OBJECTS)
	$(COMPILE) -c -o $@ $<

$(OUT)/tmchan: $(call objects,$(PROGRAM))
	$(LINK) -pie -pthread -o $@ $^

$(OBJECTS)/tmchan.o: $(call objects,$(LIBRARY))
	$(LD) -r -z noexecstack -o $@.all $^
	$(OBJCOPY) $(call kept,$(CALLS)) $@.all $@
	rm $@.all

$(OUT)/libtmchan.a: $(OBJECTS)/tmchan.o
	rm -f $@
	$(AR) rcD $@ $<

# The names of the shared library, with the version whose they are
$(OBJECTS)/tmchan.map: Makefile include/tmchan.h | $(OBJECTS)
	printf '%s\n' 'TMCHAN_$(basename $(VERSION)) {' 'global:' $(patsubst %,'    %;',$(CALLS)) 'local:' '    *;' '};' >$@

$(OUT)/libtmchan.so: $(OBJECTS)/tmchan.o $(OBJECTS)/tmchan.map
	$(LINK) -shared -Wl,-soname,$(SONAME) -Wl,--version-script,$(OBJECTS)/tmchan.map -o $@ $<

# Its prefix is written as it is installed.
$(OUT)/tmchan.pc: Makefile include/tmchan.h | $(OBJECTS)
	printf '%s\n' 'prefix=@PREFIX@' 'libdir=$${prefix}/@LIBDIR@' 'includedir=$${prefix}/include' \
	    'proved=$(if $(PROVED),yes,no)' 'Name: tmchan' \
	    'Description: CCSDS 131.0-B channel codec' 'Version: $(VERSION)' 'Libs: -L$${libdir} -ltmchan' \
	    'Cflags: -I$${includedir}' >$@

install: install-program install-lib

uninstall: uninstall-program uninstall-lib

install-program: program
	mkdir -p $(DESTDIR)$(PREFIX)/bin $(DESTDIR)$(PREFIX)/$(MAN)/man1 $(DESTDIR)$(PREFIX)/$(MAN)/man5
	mkdir -p $(addprefix $(DESTDIR)$(PREFIX)/,$(BASH_COMPLETIONS) $(ZSH_COMPLETIONS) $(FISH_COMPLETIONS))
	install -m 755 $(OUT)/tmchan $(DESTDIR)$(PREFIX)/bin
	sed '/^\.\\" make install says/c This one was $(BUILT).' man/tmchan.1 >$(DESTDIR)$(PREFIX)/$(MAN)/man1/tmchan.1
	install -m 644 man/tmchan-certificate.5 $(DESTDIR)$(PREFIX)/$(MAN)/man5
	install -m 644 completions/tmchan.bash $(DESTDIR)$(PREFIX)/$(BASH_COMPLETIONS)/tmchan
	install -m 644 completions/tmchan.zsh $(DESTDIR)$(PREFIX)/$(ZSH_COMPLETIONS)/_tmchan
	install -m 644 completions/tmchan.fish $(DESTDIR)$(PREFIX)/$(FISH_COMPLETIONS)

uninstall-program:
	rm -f $(addprefix $(DESTDIR)$(PREFIX)/,bin/tmchan $(MAN)/man1/tmchan.1 $(MAN)/man5/tmchan-certificate.5 \
	    $(BASH_COMPLETIONS)/tmchan $(ZSH_COMPLETIONS)/_tmchan $(FISH_COMPLETIONS)/tmchan.fish)

install-lib: lib
	mkdir -p $(DESTDIR)$(PREFIX)/include $(DESTDIR)$(PREFIX)/$(LIBDIR)/pkgconfig
	install -m 644 include/tmchan.h $(DESTDIR)$(PREFIX)/include
	install -m 644 $(OUT)/libtmchan.a $(DESTDIR)$(PREFIX)/$(LIBDIR)
	install -m 755 $(OUT)/libtmchan.so $(DESTDIR)$(PREFIX)/$(LIBDIR)/libtmchan.so.$(VERSION)
	ln -sf libtmchan.so.$(VERSION) $(DESTDIR)$(PREFIX)/$(LIBDIR)/$(SONAME)
	ln -sf $(SONAME) $(DESTDIR)$(PREFIX)/$(LIBDIR)/libtmchan.so
	sed 's|@PREFIX@|$(PC_PREFIX)|; s|@LIBDIR@|$(LIBDIR)|' $(OUT)/tmchan.pc \
	    >$(DESTDIR)$(PREFIX)/$(LIBDIR)/pkgconfig/tmchan.pc

uninstall-lib:
	rm -f $(addprefix $(DESTDIR)$(PREFIX)/,include/tmchan.h \
	    $(addprefix $(LIBDIR)/,pkgconfig/tmchan.pc libtmchan.a libtmchan.so $(SONAME) libtmchan.so.$(VERSION)))

wheel: lib
	$(call need,/usr/bin/python3,python3)tools/wheel $(OUT)/libtmchan.so

dist:
	$(need_kit)$(call need,aarch64-linux-gnu-gcc,gcc-aarch64-linux-gnu)$(call need,wasm-opt,binaryen)tools/dist
