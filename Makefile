# Builds and installs the role keeper for C, Rust, Python and the command line. `make` proves the library first, with the
# Rattle kit under /opt/rattle, in some minutes from nothing.
#
#   make                                 the archive, the shared object and the command line
#   make test                            the gate, .ci/run
#   make install PREFIX=.. DESTDIR=..    header, archive, keeper.pc, command line, Python module with its shared object
#   make clean                           removes whatever is built, the finished proofs too

VERSION = 0.1.0
PREFIX ?= /usr/local
DESTDIR ?=
CC ?= cc
CARGO ?= cargo
export PATH := $(PATH):/opt/rattle/bin

archive = target/staticlib/libkeeper.a
shared = target/shared/libkeeper.so
program = target/cargo/release/keeper
sources := $(shell find crates -name out -prune -o \( -name '*.rt' -o -name '*.antt' \) -print) crates.txt
root = $(DESTDIR)$(PREFIX)

all: $(archive) $(shared) program

$(archive): $(sources)
	@command -v rt >/dev/null || { echo 'make: the Rattle kit is missing: there is no rt in /opt/rattle/bin or in PATH'; exit 1; }
	tools/static-library

$(shared): $(archive)
	mkdir -p $(@D)
	$(CC) $(LDFLAGS) -shared -Wl,-z,defs -o $@ -Wl,--whole-archive $(archive) -Wl,--no-whole-archive

# cargo knows best whether the program is up to date.
program: $(archive)
	$(CARGO) build --quiet --release --offline --manifest-path cli/Cargo.toml --target-dir target/cargo

test:
	bash .ci/run

install: all
	install -d $(root)/bin $(root)/include $(root)/lib/pkgconfig $(root)/lib/keeper
	install -m 755 $(program) $(root)/bin/keeper
	install -m 644 include/keeper.h $(root)/include/keeper.h
	install -m 644 $(archive) $(root)/lib/libkeeper.a
	install -m 755 $(shared) $(root)/lib/keeper/libkeeper.so
	install -m 644 bindings/python/keeper.py $(root)/lib/keeper/keeper.py
	printf '%s\n' 'prefix=$(PREFIX)' 'includedir=$${prefix}/include' 'libdir=$${prefix}/lib' '' 'Name: keeper' \
	    'Description: The TraceBench role keeper: may this seat use this privilege?' 'Version: $(VERSION)' \
	    'Cflags: -I$${includedir}' 'Libs: -L$${libdir} -lkeeper' >$(root)/lib/pkgconfig/keeper.pc

clean:
	rm -rf target out crates/*/out bindings/rust/target cli/target tests/keeper/target tests/reference/target bench/target examples/rust/target
	find . -name __pycache__ -type d -prune -exec rm -rf {} +

.PHONY: all program test install clean
