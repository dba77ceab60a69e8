# Hanjolum by a C compiler alone: the library is portable/hanjolum.c. GNU make and BSD make both take this file.
#     make                                 target/make/libhanjolum.a and the examples
#     make check                           runs the examples, holds the header to that library, and tries an installation
#     make install PREFIX=/opt/hanjolum    header, static library and hanjolum.pc; DESTDIR, for packages, is put before PREFIX
#     make clean
# LIBRARY=target/staticlib/libhanjolum.a takes the toolchain's own archive, of `tools/proved/make hanjolum`, in place of the one made here.
# CC, CFLAGS (-O2, where make has none of its own) and AR name the compiler, its options and the archiver.
PREFIX = /usr/local
CFLAGS ?= -O2
OUT = target/make
LIBRARY = $(OUT)/libhanjolum.a
EXAMPLES = $(OUT)/cart $(OUT)/leg $(OUT)/leg_file

all: $(LIBRARY) $(EXAMPLES)

$(OUT)/libhanjolum.a: portable/hanjolum.c include/hanjolum.h
	@set -- $(CC) && command -v "$$1" >/dev/null || { echo "make: $$1, a C compiler, is not there (Debian package gcc)" >&2; exit 1; }
	mkdir -p $(OUT)
	$(CC) -std=c11 $(CFLAGS) -Iinclude -c portable/hanjolum.c -o $(OUT)/hanjolum.o
	rm -f $@ && $(AR) rc $@ $(OUT)/hanjolum.o

$(EXAMPLES): $(LIBRARY) include/hanjolum.h examples/cart.c examples/leg.c examples/leg_file.c
	mkdir -p $(OUT)
	$(CC) -std=c11 $(CFLAGS) -Iinclude examples/$(@F).c $(LIBRARY) -o $@

check: all
	$(OUT)/cart >$(OUT)/cart.txt && tail -n 1 $(OUT)/cart.txt
	$(OUT)/leg >$(OUT)/leg.txt && tail -n 12 $(OUT)/leg.txt
	$(OUT)/leg_file $(OUT)/two-sectors.leg >$(OUT)/leg_file.txt && head -n 1 $(OUT)/leg_file.txt
	CC='$(CC)' tools/header/check $(LIBRARY)
	CC='$(CC)' LIBRARY='$(LIBRARY)' tools/header/installed
	@echo 'make check: three examples ran, the header is held to $(LIBRARY), and what is installed was compiled with'

install: $(LIBRARY)
	@case '$(PREFIX)' in *[[:space:]]*) ;; /*) exit 0 ;; esac; \
	    echo "make install: PREFIX takes a folder from / on, without blanks, and is '$(PREFIX)'" >&2; exit 1
	mkdir -p '$(DESTDIR)$(PREFIX)/include' '$(DESTDIR)$(PREFIX)/lib/pkgconfig'
	install -m 644 include/hanjolum.h '$(DESTDIR)$(PREFIX)/include/hanjolum.h'
	install -m 644 $(LIBRARY) '$(DESTDIR)$(PREFIX)/lib/libhanjolum.a'
	printf '%s\n' 'prefix=$(PREFIX)' 'Name: Hanjolum' 'Description: Proved arrows for carts' \
	    "$$(sed -n 's/^#define HANJOLUM_VERSION "\(.*\)"$$/Version: \1/p' include/hanjolum.h)" \
	    'Cflags: -I$${prefix}/include' 'Libs: -L$${prefix}/lib -lhanjolum' >'$(DESTDIR)$(PREFIX)/lib/pkgconfig/hanjolum.pc'

clean:
	rm -rf $(OUT)

.PHONY: all check install clean
