# The C library: `make` builds the archive and the examples, `make install` puts the library where C compilers and pkg-config look for it.
PREFIX ?= /usr/local
INCLUDEDIR ?= $(PREFIX)/include
LIBDIR ?= $(PREFIX)/lib
INSTALL ?= install
CFLAGS ?= -O2 -Wall -Wextra

archive := target/lib/libbranmuslin.a
parts := branmuslin_c lanes_c frames_c
proved := $(foreach part,$(parts),crates/$(part)/out/lib$(part).a)
header := include/branmuslin.h
examples := $(patsubst examples/%.c,target/examples/%,$(wildcard examples/*.c))
release = $(shell sed -n 's/^.define BRANMUSLIN_RELEASE "\(.*\)"/\1/p' $(header))
include_to = $(DESTDIR)$(INCLUDEDIR)
lib_to = $(DESTDIR)$(LIBDIR)
no_rt := the library is not built from these sources, and the Rattle toolchain (the command rt) is not installed

.PHONY: all install uninstall clean
.DELETE_ON_ERROR:

all: $(archive) $(examples)

# The archive has an object for each of three crates, so that each is compiled by itself (docs/DECISIONS.md). It gets the time at which its proving
# began, so that a file changed meanwhile counts as newer. What rt keeps in a crate's out/ is no source, and when out/ comes, the crate's own folder counts as changed: so neither is looked at.
$(archive): crates.txt $(shell find crates -mindepth 2 -name out -prune -o -print)
	$(if $(shell command -v rt 2>&1),,$(error $(no_rt)))
	@mkdir -p $(@D) && touch target/lib/begun
	@echo 'proving and building the library; from nothing this takes a few minutes'
	@for crate in $(parts); do (cd crates/$$crate && rt lib) || exit; done >target/lib/log 2>&1 || { tail -n 20 target/lib/log >&2; echo 'the library was not proved or built; see target/lib/log' >&2; exit 1; }
	@rm -f $@ && printf 'create $@\n$(foreach part,$(proved),addlib $(part)\n)save\nend\n' | $(AR) -M
	@touch -c -r target/lib/begun $@ && rm -f target/lib/begun

target/examples/%: examples/%.c $(header) $(archive)
	@mkdir -p $(@D)
	$(CC) -Iinclude $(CPPFLAGS) $(CFLAGS) $(LDFLAGS) -o $@ $< $(archive)

install: $(archive)
	$(if $(filter /%,$(PREFIX)),,$(error PREFIX is to be a whole path, and is '$(PREFIX)'))
	$(INSTALL) -d '$(include_to)' '$(lib_to)/pkgconfig'
	$(INSTALL) -m 644 $(header) '$(include_to)/branmuslin.h'
	$(INSTALL) -m 644 $(archive) '$(lib_to)/libbranmuslin.a'
	sed 's|@PREFIX@|$(PREFIX)|; s|@INCLUDEDIR@|$(INCLUDEDIR)|; s|@LIBDIR@|$(LIBDIR)|; s|@RELEASE@|$(release)|' branmuslin.pc.in >'$(lib_to)/pkgconfig/branmuslin.pc'
	chmod 644 '$(lib_to)/pkgconfig/branmuslin.pc'

uninstall:
	rm -f '$(include_to)/branmuslin.h' '$(lib_to)/libbranmuslin.a' '$(lib_to)/pkgconfig/branmuslin.pc'

clean:
	rm -rf target/examples target/lib $(proved)
