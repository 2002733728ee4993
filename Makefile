# The library and the program `turnipcart`: make, make install [PREFIX=...] [DESTDIR=...], make uninstall. All that is built lies in build/.
PREFIX = /usr/local
DESTDIR =
CFLAGS = -O2
WARNINGS = -Wall -Wextra -Wpedantic -Wshadow -Wconversion -Wstrict-prototypes -Werror

sources = $(wildcard program/*.c program/advice/*.c)
headers = $(wildcard program/*.h program/advice/*.h)
version = $(shell sed -n 's/^\#define TURNIPCART_VERSION "\(.*\)"/\1/p' include/turnipcart.h)
flags = -std=c11 -D_POSIX_C_SOURCE=200809L $(WARNINGS) $(CFLAGS) -Ibuild -Ibuild/program

.PHONY: all program words install uninstall clean
# What the library is made from is known to tools/library, which keeps it where nothing is younger.
all:
	@tools/library --if-older
	@$(MAKE) --no-print-directory program

program: build/turnipcart build/turnipcart.pc

# The words of the compiler, for tests that build it in their own way.
words:
	@echo $(flags) $(sources) build/libturnipcart.a

# The entries that `turnipcart explain` prints, each line of the document as a string.
build/program/refusals.inc: docs/REFUSALS.md
	@mkdir -p build/program
	sed 's/\\/\\\\/g; s/"/\\"/g; s/.*/"&",/' docs/REFUSALS.md >$@

# The program is for x86-64 and lies in build/program; build/turnipcart is the same, or on another processor a script that runs it.
build/turnipcart: $(sources) $(headers) build/libturnipcart.a build/turnipcart.h build/program/refusals.inc program/build program/launcher
	program/build $(flags) $(sources) build/libturnipcart.a

build/turnipcart.pc: program/turnipcart.pc.in include/turnipcart.h Makefile
	sed 's|@PREFIX@|$(PREFIX)|; s|@VERSION@|$(version)|' program/turnipcart.pc.in >$@

install: all
	install -d $(DESTDIR)$(PREFIX)/bin $(DESTDIR)$(PREFIX)/lib/pkgconfig $(DESTDIR)$(PREFIX)/include $(DESTDIR)$(PREFIX)/share/man/man1
	install -d $(DESTDIR)$(PREFIX)/libexec/turnipcart
	install build/turnipcart $(DESTDIR)$(PREFIX)/bin/turnipcart
	install build/program/turnipcart $(DESTDIR)$(PREFIX)/libexec/turnipcart/turnipcart
	install -m 644 build/libturnipcart.a $(DESTDIR)$(PREFIX)/lib/libturnipcart.a
	install -m 644 include/turnipcart.h $(DESTDIR)$(PREFIX)/include/turnipcart.h
	sed 's|@PREFIX@|$(PREFIX)|; s|@VERSION@|$(version)|' program/turnipcart.pc.in >$(DESTDIR)$(PREFIX)/lib/pkgconfig/turnipcart.pc
	install -m 644 program/turnipcart.1 $(DESTDIR)$(PREFIX)/share/man/man1/turnipcart.1

uninstall:
	rm -f $(DESTDIR)$(PREFIX)/bin/turnipcart $(DESTDIR)$(PREFIX)/lib/libturnipcart.a $(DESTDIR)$(PREFIX)/include/turnipcart.h
	rm -f $(DESTDIR)$(PREFIX)/lib/pkgconfig/turnipcart.pc $(DESTDIR)$(PREFIX)/share/man/man1/turnipcart.1
	rm -rf $(DESTDIR)$(PREFIX)/libexec/turnipcart

clean:
	rm -rf build
