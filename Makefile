# The library as others install it. `make` builds build/libpostman.a and build/libpostman.so from the proved archive.
#
#   make                              LIBPROVED=/path/libproved.a takes an archive that was built elsewhere
#   make install PREFIX=/usr/local    DESTDIR=/stage puts all of it under another root
#   make check                        the gate: proofs from nothing and all tests
#   make quick                        the quick gate
PREFIX ?= /usr/local
DESTDIR ?=
CC ?= cc
AR ?= ar
OBJCOPY ?= objcopy
CFLAGS ?= -O2

VERSION := $(shell sed -n 's/^\#define POSTMAN_VERSION "\(.*\)"$$/\1/p' include/postman.h)
SONAME := libpostman.so.$(firstword $(subst ., ,$(VERSION)))
SHARED := libpostman.so.$(VERSION)
MAN_PAGES := $(wildcard bindings/python/man/*.1)

include_dir = $(DESTDIR)$(PREFIX)/include
lib_dir = $(DESTDIR)$(PREFIX)/lib
man_dir = $(DESTDIR)$(PREFIX)/share/man/man1
installed = $(include_dir)/postman.h $(lib_dir)/libpostman.a $(lib_dir)/$(SHARED) $(lib_dir)/$(SONAME) \
	$(lib_dir)/libpostman.so $(lib_dir)/pkgconfig/postman.pc $(addprefix $(man_dir)/,$(notdir $(MAN_PAGES)))

.PHONY: all install uninstall check quick clean
.DELETE_ON_ERROR:

all: build/libpostman.a build/libpostman.so

# Without LIBPROVED the archive is built here, again whenever a source of it has changed.
ifndef LIBPROVED
LIBPROVED := target/staticlib/libproved.a
$(LIBPROVED): $(wildcard crates/*/src/*.rt)
	tools/library
	@touch $@
endif

build:
	mkdir -p $@

build/words.o: bindings/c/words.c include/postman.h | build
	$(CC) -std=c99 -Wall -Wextra -Wpedantic -Werror $(CFLAGS) -fPIC -Iinclude -c $< -o $@

# All in one object, in which every name but postman_* is its own.
build/postman.o: $(LIBPROVED) build/words.o
	$(CC) -r -nostdlib -o $@ -Wl,--whole-archive $(LIBPROVED) -Wl,--no-whole-archive build/words.o
	$(OBJCOPY) --wildcard --keep-global-symbol='postman_*' $@

build/libpostman.a: build/postman.o
	rm -f $@
	$(AR) rcs $@ $<

build/$(SHARED): build/postman.o bindings/c/postman.map
	$(CC) -shared -Wl,-soname,$(SONAME) -Wl,--version-script=bindings/c/postman.map -Wl,-z,defs -o $@ $<

build/libpostman.so: build/$(SHARED)
	ln -sf $(SHARED) build/$(SONAME)
	ln -sf $(SONAME) $@

install: all
	install -d $(include_dir) $(lib_dir)/pkgconfig
	install -m 644 include/postman.h $(include_dir)
	install -m 644 build/libpostman.a $(lib_dir)
	install -m 755 build/$(SHARED) $(lib_dir)
	ln -sf $(SHARED) $(lib_dir)/$(SONAME)
	ln -sf $(SONAME) $(lib_dir)/libpostman.so
	sed -e 's|@PREFIX@|$(PREFIX)|' -e 's|@VERSION@|$(VERSION)|' bindings/c/postman.pc.in \
		> $(lib_dir)/pkgconfig/postman.pc
ifneq ($(MAN_PAGES),)
	install -d $(man_dir)
	install -m 644 $(MAN_PAGES) $(man_dir)
endif

uninstall:
	rm -f $(installed)

check:
	bash .ci/run

quick:
	bash .ci/quick

clean:
	rm -rf build
