# `make` builds the archive and shows it at work; `make test` is the whole test. Nothing is fetched.
#
#   make all       prove what has changed, build the archive, run the example
#   make test      the gate, rt ci, then the tests outside of the proofs (what .ci/run calls)
#   make outside   only the tests outside of the proofs; make oracle, make ctest: one of them
#   make fuzz      calls made by coverage, for FUZZ_SECONDS (60); needs clang with libFuzzer, and is in no test run
#   make bench     times and instruction counts beside those of the peers, sizes, and the chart docs/speed.svg
#   make install   archive, header and pkg-config file under DESTDIR and PREFIX (/usr/local); make uninstall removes them
#   make list      write the stored lists of Rust's answers anew
#   make archive   target/staticlib/liblarguviet.a
#   make clean     remove all that is made
#
# LARGUVIET_LIB=DIR takes the liblarguviet.a in DIR and proves and builds none; `make test` does not heed it.

.PHONY: all check archive example test outside oracle ctest fuzz bench install uninstall list clean
.NOTPARALLEL:
.DEFAULT_GOAL := all

# LIST_FULL=0 leaves out the lines with all fields.
LIST_LINES := 2000
LIST_FULL := 3000
LIST_PARTS := 1000
LIST_SEED := 1972

FUZZ_SECONDS ?= 60

PREFIX ?= /usr/local
version := $(shell sed -n 's/^version = "\(.*\)"/\1/p' rust/Cargo.toml)
installed := lib/liblarguviet.a include/larguviet.h lib/pkgconfig/larguviet.pc

export CARGO_TARGET_DIR := $(CURDIR)/build/cargo
cargo_run := cargo run --quiet --release --offline

# Under another HOME than the one it was installed in, rustup does not find its toolchains by itself.
toolchains := $(wildcard $(dir $(shell command -v cargo))../../.rustup)
ifeq ($(RUSTUP_HOME)$(wildcard $(HOME)/.rustup/toolchains),)
ifneq ($(toolchains),)
export RUSTUP_HOME := $(abspath $(toolchains))
endif
endif

ifdef LARGUVIET_LIB
override LARGUVIET_LIB := $(abspath $(LARGUVIET_LIB))
export LARGUVIET_LIB
lib := $(LARGUVIET_LIB)
check archive:
else
lib := target/staticlib
check:
	rt all check
archive:
	cd crates/larguviet_c && rt lib
	@mkdir -p $(lib)
	cp crates/larguviet_c/out/liblarguviet_c.a $(lib)/liblarguviet.a
endif

all: check example

example: archive
	@mkdir -p build
	gcc -std=c99 -O2 -Wall -Wextra -pedantic -Iinclude examples/gearbox.c $(lib)/liblarguviet.a -o build/gearbox
	build/gearbox

test:
	@tests/run

outside: archive
	@tests/run rust oracle c

oracle: archive
	@tests/run oracle

ctest: archive
	@tests/run c

fuzz: archive
	@FUZZ_SECONDS=$(FUZZ_SECONDS) tests/fuzz/run

bench: archive
	@cd bench && $(cargo_run) -- chart ../docs/speed.svg
	@bench/sizes

install: archive
	install -d $(DESTDIR)$(PREFIX)/lib/pkgconfig $(DESTDIR)$(PREFIX)/include
	install -m 644 $(lib)/liblarguviet.a $(DESTDIR)$(PREFIX)/lib
	install -m 644 include/larguviet.h $(DESTDIR)$(PREFIX)/include
	sed 's|@PREFIX@|$(PREFIX)|; s|@VERSION@|$(version)|' larguviet.pc.in >$(DESTDIR)$(PREFIX)/lib/pkgconfig/larguviet.pc
	chmod 644 $(DESTDIR)$(PREFIX)/lib/pkgconfig/larguviet.pc

uninstall:
	rm -f $(installed:%=$(DESTDIR)$(PREFIX)/%)

list: archive
	@cd oracle && $(cargo_run) -- list $(LIST_LINES) $(LIST_FULL) $(LIST_SEED) --out ../crates/replay
	@cd oracle && $(cargo_run) -- parts $(LIST_PARTS) $(LIST_SEED) --out ../crates/replay_parts
	@cd oracle && $(cargo_run) -- part-list $(LIST_PARTS) $(LIST_SEED) --out ../crates/replay_lists

clean:
	rm -rf build target crates/*/out
