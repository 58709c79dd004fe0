# The library as one archive, and its installation.
#
#     make                        proves the crates and writes target/lib/libzeppolecape.a (long, once; in seconds after `rt ci`)
#     make install PREFIX=/opt/zc headers, archive, pkg-config file and CMake package; DESTDIR is honoured
#     make uninstall PREFIX=/opt/zc
#
# The tests are .ci/run and tests/README.md's commands.

# The static libraries, one for each archive; the one that takes longest first. The library holds what all of them hold, under the names
# of the crates whose calls they export, and a program takes in only those whose calls it makes.
EXPORTS = touch_c touch_call join_c shelf_c sheet_c serve_c capi_c schedule_c capi_run_c audit_c find_c capi_record_c waiting_c

PREFIX ?= /usr/local
LIBRARY ?= target/lib/libzeppolecape.a

version_part = $(shell sed -n 's/^\#define ZC_VERSION_$(1) \([0-9]*\)$$/\1/p' include/zeppolecape.h)
VERSION := $(call version_part,MAJOR).$(call version_part,MINOR).$(call version_part,PATCH)

# A path may hold spaces: what is installed is named once here, and quoted where it is used.
INCLUDE = $(DESTDIR)$(PREFIX)/include
HEADERS = zeppolecape.h zeppolecape_atomic.h
ARCHIVE = $(DESTDIR)$(PREFIX)/lib/libzeppolecape.a
PKGCONFIG = $(DESTDIR)$(PREFIX)/lib/pkgconfig
CMAKE = $(DESTDIR)$(PREFIX)/lib/cmake/zeppolecape

.PHONY: all exports install uninstall
all: $(LIBRARY)

exports:
	@for name in $(EXPORTS); do echo "$$name"; done

target/lib/libzeppolecape.a: crates.txt $(shell find crates -name out -prune -o \( -name '*.rt' -o -name '*.antt' \) -print)
	@command -v rt >/dev/null || { echo "make: the Rattle toolchain (rt) is not on the PATH; see README.md, Requirements" >&2; exit 1; }
	@echo "proving the library, once, and compiling it:"
	@tools/progress proved $(EXPORTS) -- tools/build $(EXPORTS)
	rm -rf target/lib && mkdir -p target/lib/members
	cd target/lib/members && for name in $(EXPORTS); do \
		ar x ../../../crates/$$name/out/lib$$name.a && { [ "$$name" = "$${name%_c}" ] || mv $$name.o $${name%_c}.o; } || exit 1; done
	ar rcsD $@ target/lib/members/*.o

install: $(LIBRARY)
	install -d "$(INCLUDE)"
	for name in $(HEADERS); do install -m 644 include/$$name "$(INCLUDE)/$$name" || exit 1; done
	install -D -m 644 "$(LIBRARY)" "$(ARCHIVE)"
	install -d "$(PKGCONFIG)" "$(CMAKE)"
	sed 's/@VERSION@/$(VERSION)/' packaging/zeppolecape.pc.in >"$(PKGCONFIG)/zeppolecape.pc"
	sed 's/@VERSION@/$(VERSION)/' packaging/zeppolecape-config-version.cmake.in >"$(CMAKE)/zeppolecape-config-version.cmake"
	install -m 644 packaging/zeppolecape-config.cmake "$(CMAKE)/zeppolecape-config.cmake"

uninstall:
	for name in $(HEADERS); do rm -f "$(INCLUDE)/$$name" || exit 1; done
	rm -f "$(ARCHIVE)" "$(PKGCONFIG)/zeppolecape.pc"
	rm -rf "$(CMAKE)"
