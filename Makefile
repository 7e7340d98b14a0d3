# `make tools` proves and builds mux, demux, bond and unbond; `make run` the lister, and lists the sample; `make test` is the gate;
# `make board` makes the archive for C; `make bench` measures, `make count` counts instructions, `make stack` measures stack; `make memory`
# runs the comparison under valgrind; `make real` takes real streams through the tools; `make map` writes the map of the crates. What lacks is installed, and said;
# `make setup` does that apart. Measuring and valgrind take an archive for the machine's own processor.
.PHONY: tools names rust-test tools-test lister-test real run test board archive archive-test limits-test stack-test stack board-test native \
	bench count memory vectors setup map map-test
# The static libraries of crates.txt, which are the archive for C.
BOARD = $(shell sed -n -E 's/^(niranbok_[a-z_]+) staticlib:.*/\1/p' crates.txt)

SHELL = /bin/bash
.SHELLFLAGS = -o pipefail -c

# Where the archive goes, and the folder in which rt leaves each program.
ARCHIVE = target/board
PROGRAM = crates/$(1)/out/$(1)

# The archive and the programs are for x86-64. On another processor an emulator runs them, and Debian's cross compilers make what is
# linked with the archive.
ifeq ($(shell uname -m),x86_64)
CROSS_CC = gcc
CROSS_CARGO = cargo
BENCH = compare/target/release/bench
NATIVE = $(ARCHIVE)
else
EMULATOR = qemu-x86_64
CROSS_CC = x86_64-linux-gnu-gcc
CROSS_CARGO = RUSTC=/usr/bin/rustc CARGO_BUILD_TARGET=x86_64-unknown-linux-gnu CARGO_TARGET_X86_64_UNKNOWN_LINUX_GNU_LINKER=$(CROSS_CC) \
	CARGO_TARGET_X86_64_UNKNOWN_LINUX_GNU_RUNNER=$(EMULATOR) cargo
BENCH = compare/target/x86_64-unknown-linux-gnu/release/bench
NATIVE = target/native
export NIRANBOK_EMULATOR = $(EMULATOR)
# A processor without AVX and fast strings: copies take the emulator a third less time by what it then does.
export QEMU_CPU ?= Nehalem
# A quarter of the comparison's rounds are a million calls, and the emulator takes its time.
export NIRANBOK_PART ?= 4
endif

# The emulator and the cross compilers, where they are needed and lack. On x86-64 there is nothing to install.
setup:
ifdef EMULATOR
	@scripts/install.sh 'the programs and the archive are for x86-64, and this machine is not (about a minute)' \
	qemu-user=$(EMULATOR) gcc-x86-64-linux-gnu=$(CROSS_CC) libc6-dev-amd64-cross=/usr/x86_64-linux-gnu/include/stdio.h \
	rustc-web=/usr/bin/rustc libstd-rust-web-dev:amd64=/usr/lib/rustlib/x86_64-unknown-linux-gnu
else
	@:
endif

# One program with four names, in target/tools: copies, since rt refuses links in the checkout.
tools: setup
	@scripts/prove.sh tools
	@$(MAKE) --no-print-directory names

# Its names, where it is built.
names: setup
	@mkdir -p target/tools
ifdef EMULATOR
	@for name in mux demux bond unbond; do rm -f target/tools/$$name; printf '#!/bin/sh\nexec $(EMULATOR) -0 %s %s "$$@"\n' $$name \
	$(CURDIR)/$(call PROGRAM,tools) >target/tools/$$name; chmod +x target/tools/$$name; done
else
	@for name in mux demux bond unbond; do cp --remove-destination $(call PROGRAM,tools) target/tools/$$name; done
endif
	@echo 'target/tools has mux, demux, bond and unbond'

# The independent programs' own tests, and the tests of the tools made ready.
rust-test:
	cd compare && cargo test --quiet && cargo test --quiet -p tools --no-run

# The tools that are there on good and bad input, held to what the independent Rust makes of the same.
tools-test: names
	cd compare && cargo test --quiet -p tools

# Two streams by ffmpeg, multiplexed, taken apart and compared, whole and with packets lost. Here and below what lacks is installed first:
# the proofs take minutes.
real: setup
	@scripts/install.sh 'it makes the real streams' ffmpeg=ffmpeg
	@$(MAKE) --no-print-directory tools
	examples/real.sh target/tools/mux target/tools/demux

# The lister as the scope document calls it: its example, without arguments.
lister-test: setup
	scripts/example.sh $(EMULATOR) $(call PROGRAM,lister)

run: setup
	@scripts/prove.sh lister
	$(EMULATOR) $(call PROGRAM,lister) < samples/recording.ts

# The proofs, the wrong programs and the programs (`rt ci`), and all the tests. Where all is well the last line printed is rt's; else it
# names what failed, and make's own line comes behind it.
test:
	@scripts/gate.sh

# The map of the crates, docs/MAP.md, from crates.txt and the crates' head comments; and the page held to what would be written.
map:
	@scripts/install.sh 'the script of the map is written in it' python3=python3
	scripts/map.py

map-test:
	@scripts/install.sh 'the script of the map is written in it' python3=python3
	scripts/map.py --check

# The board interface as one archive, target/board/libniranbok.a, for include/niranbok.h.
board:
	@scripts/prove.sh $(BOARD)
	@$(MAKE) --no-print-directory archive

# The archive alone. The gate says since when rt has proved what there is.
archive:
	@scripts/archive.sh $(if $(SINCE),--since $(SINCE)) $(ARCHIVE)

# The examples in C, and both implementations over the same inputs, with the archive that is there.
archive-test: setup
	for name in board bonding; do \
	$(CROSS_CC) -std=c99 -Wall -Wextra -Werror -Iinclude examples/$$name.c $(ARCHIVE)/libniranbok.a -o $(ARCHIVE)/$$name && \
	$(EMULATOR) $(ARCHIVE)/$$name || exit 1; done
	cd compare && $(CROSS_CARGO) test --quiet -p board --tests

# The header's constants held to the program that is there; and what that prints held to the archive's calls, value by value.
limits-test: setup
	scripts/limits.sh $(EMULATOR) $(call PROGRAM,limits)
	$(EMULATOR) $(call PROGRAM,limits) | (cd compare && $(CROSS_CARGO) run --quiet -p limits -- ../include/niranbok.h)

# How much stack each call takes, on the archive that is there, held to the limits in stack/limits; and the same with the archive made first.
stack-test: setup
	scripts/stack.sh $(ARCHIVE)/libniranbok.a $(CROSS_CC) env $(CROSS_CARGO)

stack: board
	@$(MAKE) --no-print-directory stack-test

# All of the board interface's.
board-test: setup board
	@scripts/prove.sh limits
	@$(MAKE) --no-print-directory archive-test limits-test stack-test

# An archive to measure and to watch: the product's, or, since a time under the emulator says nothing, the same crate proved and compiled for
# this machine's own processor.
native:
ifdef EMULATOR
	@scripts/prove.sh $(BOARD)
	@scripts/archive.sh $(NATIVE) --target $(shell uname -m)-unknown-linux-gnu
else
	@$(MAKE) --no-print-directory board
endif

# Both implementations and bare copies, measured in one run; then the lister and the tools, which are for x86-64 alone.
bench:
ifndef EMULATOR
	@scripts/install.sh 'it says how much memory the tools take' time=/usr/bin/time
endif
	@$(MAKE) --no-print-directory native
	cd compare && NIRANBOK_LIB=$(CURDIR)/$(NATIVE) cargo run --quiet --release -p board --bin bench
ifndef EMULATOR
	@scripts/prove.sh tools lister
	scripts/lister.sh $(call PROGRAM,lister)
	scripts/tools.sh $(call PROGRAM,tools)
endif

# The benchmark's rows in counted instructions, under the emulator, on x86-64 too.
count: setup
	@scripts/install.sh 'it counts the instructions' qemu-user=qemu-x86_64
	@$(MAKE) --no-print-directory board
	cd compare && $(CROSS_CARGO) build --quiet --release -p board --bin bench
	scripts/count.sh $(BENCH)

# The same comparison, shorter, with every access watched.
memory:
	@scripts/install.sh 'it watches every access' valgrind=valgrind
	@$(MAKE) --no-print-directory native
	cd compare && NIRANBOK_LIB=$(CURDIR)/$(NATIVE) cargo test --quiet -p board --no-run
	scripts/memory.sh

# Makes the vectors and expected outputs again, from programs that share nothing with the crates.
vectors:
	@scripts/install.sh 'it makes the CRCs that the vectors have' python3-crcmod=/usr/lib/python3/dist-packages/crcmod
	/usr/bin/python3 vectors/crc_vectors.py
	/usr/bin/python3 vectors/frames.py
	vectors/make_cases.sh
	/usr/bin/python3 vectors/remainders.py
