# Builds the command and the library for C over what is proved: make, make CC=gcc, make CC=clang; with SANITIZE=1 each
# access is checked while it runs. Without the Rattle kit it takes target/libproved.a as it is there.
PREFIX ?= /usr/local
CFLAGS ?= -O2
VERSION := $(shell sed -n 's/.*VENDORFINCH_VERSION "\(.*\)"/\1/p' host/vendorfinch.h)
flags := -std=c11 -D_GNU_SOURCE $(CFLAGS) -Wall -Wextra -Ihost

# the kit's own compiler where there is a kit and no other is asked for; a folder for each compiler
ifneq ($(and $(filter default,$(origin CC)),$(wildcard host/cc),$(shell command -v rt 2>/dev/null)),)
CC := host/cc
endif
ifeq ($(CC),host/cc)
build := target/c/kit
run := host/run
flags += -Werror
AR = $(shell host/cc -print-prog-name=llvm-ar)
else
build := target/c/$(notdir $(firstword $(CC)))
flags += -pthread
endif
ifdef SANITIZE
build := $(build)-sanitized
flags += -fsanitize=address,undefined -fno-sanitize-recover=all -g
endif

layer := $(addprefix $(build)/host/,words.o model.o table.o)
command := $(patsubst %.c,$(build)/%.o,$(wildcard command/*.c))
hosts := $(addprefix $(build)/tests/c/,large layer cases)
headers := $(wildcard command/*.h host/*.h host/kit/*.h host/kit/sys/*.h)

all: $(build)/libvendorfinch.a $(build)/vendorfinch

hosts: $(hosts)

test: all
	VENDORFINCH="$(patsubst %,'$(CURDIR)/%',$(run) $(build)/vendorfinch)" tests/command/run

# proved again where a source below a crate is newer, or a folder of sources, from which one may have gone; a crate's
# out/ is rt's own
sources := \( -path 'crates/*/*' -type d -o -name '*.rt' -o -name '*.antt' -o -name crates.txt -o -name library \)
newer := -newer target/libproved.a -print
target/libproved.a: $(shell find crates crates.txt host/library -name out -prune -o $(sources) $(newer) 2>/dev/null)
	host/library

$(build)/%.o: %.c $(headers) Makefile
	@mkdir -p $(@D)
	$(CC) $(flags) -c $< -o $@

$(build)/libvendorfinch.a: target/libproved.a $(layer)
	cp target/libproved.a $@
	$(AR) rs $@ $(layer)

$(build)/vendorfinch: $(command) $(build)/libvendorfinch.a command
	$(CC) $(flags) $(LDFLAGS) -o $@ $(filter %.o %.a,$^)

$(hosts): %: %.o $(build)/libvendorfinch.a
	$(CC) $(flags) $(LDFLAGS) -o $@ $^

to = $(DESTDIR)$(PREFIX)
folders := bin lib/pkgconfig include/vendorfinch share/man/man1 share/doc/vendorfinch
install: all
	install -d $(patsubst %,"$(to)/%",$(folders))
	install -m 755 $(build)/vendorfinch "$(to)/bin"
	install -m 644 $(build)/libvendorfinch.a "$(to)/lib"
	install -m 644 host/vendorfinch.h host/model.h host/table.h "$(to)/include/vendorfinch"
	install -m 644 docs/STATION.md "$(to)/share/doc/vendorfinch"
	sed '1s/"vendorfinch"/"vendorfinch $(VERSION)"/' command/vendorfinch.1 | \
	    install -m 644 /dev/stdin "$(to)/share/man/man1/vendorfinch.1"
	printf '%s\n' 'prefix=$(PREFIX)' 'libdir=$${prefix}/lib' 'includedir=$${prefix}/include' '' 'Name: vendorfinch' \
	    'Description: Proved reader and writer of INTERLIS 1 transfer files' 'Version: $(VERSION)' \
	    'Cflags: -I$${includedir}/vendorfinch' 'Libs: -L$${libdir} -lvendorfinch' | \
	    install -m 644 /dev/stdin "$(to)/lib/pkgconfig/vendorfinch.pc"

uninstall:
	cd "$(to)" && rm -f bin/vendorfinch lib/libvendorfinch.a lib/pkgconfig/vendorfinch.pc \
	    include/vendorfinch/vendorfinch.h include/vendorfinch/model.h include/vendorfinch/table.h \
	    share/man/man1/vendorfinch.1 share/doc/vendorfinch/STATION.md
	-rmdir "$(to)/include/vendorfinch" "$(to)/share/doc/vendorfinch"

# all that a machine without the kit needs
dist: target/libproved.a
	tar -czf target/vendorfinch-$(VERSION).tar.gz --transform 's,^,vendorfinch-$(VERSION)/,' --exclude __pycache__ \
	    Makefile $(wildcard host/*.h) host/words.c host/model.c host/table.c command target/libproved.a sample \
	    docs/STATION.md tests/command tests/oracle tests/cases

# the proofs stay
clean:
	rm -rf target/c

.PHONY: all hosts test install uninstall dist clean
.DELETE_ON_ERROR:
