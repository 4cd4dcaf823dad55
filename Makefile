# make run: the bench program on a capture. make lib, make install: the library. make test: every proof and every test. README says more.
CAPTURE ?= crates/bench/stdin
MACHINE ?= x86_64
PREFIX ?= /usr/local
LIBDIR ?= $(PREFIX)/lib
INCLUDEDIR ?= $(PREFIX)/include
DOCDIR ?= $(PREFIX)/share/doc/reamstork
BINDIR ?= $(PREFIX)/bin
MANDIR ?= $(PREFIX)/share/man
SECONDS_LONG ?= 3600

# The compiler makes both archives, from the same source.
X86 = target/staticlib/libreamstork.a
ARM = target/aarch64/libreamstork.a
ifeq ($(MACHINE),x86_64)
ARCHIVE = $(X86)
else ifeq ($(MACHINE),aarch64)
ARCHIVE = $(ARM)
else
$(error MACHINE is '$(MACHINE)': there are archives for x86_64 and for aarch64)
endif

# The command is for the machine that it is built on, and libpcap is that machine's own.
TOOL = target/tool/reamstork
ifeq ($(shell uname -m),aarch64)
TOOL_ARCHIVE = $(ARM)
else
TOOL_ARCHIVE = $(X86)
endif

.PHONY: help run keep lib tool install uninstall example test soak bench-speed bench-lists bench-before bench-growth bench-peers bench-stack bench-place bench-cells mutants must-fail edits-list clean kit tools capture
# Two provers over one crate's out/ would be in each other's way.
.NOTPARALLEL:
.DELETE_ON_ERROR:

# Names from outside reach the scripts as they are, spaces and all.
run capture: export CAPTURE := $(CAPTURE)
install uninstall: export MACHINE := $(MACHINE)
install uninstall: export ARCHIVE := $(ARCHIVE)
install uninstall: export PREFIX := $(PREFIX)
install uninstall: export LIBDIR := $(LIBDIR)
install uninstall: export INCLUDEDIR := $(INCLUDEDIR)
install uninstall: export DOCDIR := $(DOCDIR)
install uninstall: export BINDIR := $(BINDIR)
install uninstall: export MANDIR := $(MANDIR)
install uninstall: export TOOL := $(if $(filter $(ARCHIVE),$(TOOL_ARCHIVE)),$(TOOL))
install uninstall: export DESTDIR := $(DESTDIR)

help:
	@echo 'make run [CAPTURE=file.pcap]   prove, build and run the bench program on a capture'
	@echo 'make keep                      prove and build the program keep: target/bin/keep ACTION <in.pcap >out.pcap'
	@echo 'make lib [MACHINE=aarch64]     prove and build the library for C: $(ARCHIVE)'
	@echo 'make tool                      build the command reamstork for this machine: $(TOOL)'
	@echo 'make install [PREFIX=/usr/local] [LIBDIR=..] [INCLUDEDIR=..] [DOCDIR=..] [BINDIR=..] [MANDIR=..] [DESTDIR=..] [MACHINE=aarch64]'
	@echo '                               install what make lib and make tool built; make uninstall removes it'
	@echo 'make example                   compile and run examples/gateway.c'
	@echo 'make test                      prove every crate, try every must-fail edit, run every test'
	@echo 'make soak [SECONDS_LONG=3600]  the independent second program for as long as you like'
	@echo 'make bench-speed, bench-stack  figures of docs/TIMING.md'
	@echo 'make bench-lists               a list of 32 edits beside the same edits singly'
	@echo 'make bench-growth              how the calls grow from 10 to 512 rules'
	@echo 'make bench-before EARLIER=old.a    small stores beside an earlier archive of the library'
	@echo 'make bench-peers               a lookup beside DPDK'"'"'s rte_acl'
	@echo 'make bench-place               what finding a new rule'"'"'s place costs, in instructions'
	@echo 'make bench-cells               how many cells tables of several shapes take'
	@echo 'make mutants                   small wrong changes, and whether the prover refuses them'
	@echo 'make must-fail                 every must-fail edit, in a copy'
	@echo 'make edits-list                the list of must-fail edits, docs/EDITS.md'

# The one thing that is not installed from here: Rattle's kit, which has the prover, the compiler and the C library.
kit:
	@scripts/kit

# A C compiler for x86-64 programs and Python, from Debian's packages where they are missing.
tools:
	@tests/tools

# What a crate is built from: its files and those of the crates that it stands on. The folders are among them, so that a file that goes is seen too.
files = $(shell find $(wildcard $(foreach crate,$(1) $(shell sed -n 's/^$(1)\( [^:]*\)*: *//p' crates.txt),crates/$(crate)/src crates/$(crate)/specs crates/$(crate)/proofs)) -print)

$(X86): crates.txt scripts/archive-for $(call files,reamstork)
	@scripts/archive-for x86_64 $@

$(ARM): crates.txt scripts/archive-for $(call files,reamstork)
	@scripts/archive-for aarch64 $@

target/bin/bench: crates.txt $(call files,bench)
	@scripts/prove bench run && install -D crates/bench/out/bench $@

target/bin/keep: crates.txt $(call files,keep)
	@scripts/prove keep run && install -D crates/keep/out/keep $@

keep: target/bin/keep
	@echo 'the program that keeps the records of one action: target/bin/keep'

lib: $(ARCHIVE)
	@echo 'the library for $(MACHINE): $(ARCHIVE), its header: include/reamstork.h'

$(TOOL): $(TOOL_ARCHIVE) include/reamstork.h $(wildcard tool/*.c tool/*.h) scripts/tool
	@scripts/tool $(TOOL_ARCHIVE) $@

tool: $(TOOL)
	@echo 'the command: $(TOOL), its manual: tool/reamstork.1'

capture:
	@scripts/run --look "$$CAPTURE"

run: capture target/bin/bench
	@scripts/run "$$CAPTURE"

# Neither needs the kit. An archive that is older than the sources may not fit the header beside it.
install:
	@[ ! -f $(ARCHIVE) ] || $(MAKE) --no-print-directory -q $(ARCHIVE) || { echo "the sources are newer than $(ARCHIVE): run 'make lib MACHINE=$(MACHINE)' first, then install" >&2; exit 2; }
	@if [ -f "$(TOOL)" ] && [ $(ARCHIVE) = $(TOOL_ARCHIVE) ] && ! $(MAKE) --no-print-directory -q $(TOOL); then \
		echo "not installed, since the sources are newer: $(TOOL). 'make tool' builds it anew" >&2; TOOL= scripts/install install; \
	else scripts/install install; fi

uninstall:
	@scripts/install uninstall

example: $(X86) tools
	@tests/c_face example

test: kit tools
	@tests/all

soak: $(X86) tools
	@tests/c_face driver && tests/independent.py --driver tests/x86 target/tests/driver --seconds $(SECONDS_LONG)

bench-speed: $(X86) tools
	@sh plain/speed.sh $(X86)

bench-lists: $(X86) tools
	@sh plain/lists.sh $(X86)

bench-growth: $(X86) tools
	@sh plain/growth.sh $(X86)

bench-before: export EARLIER := $(EARLIER)
bench-before: $(X86) tools
	@sh plain/before.sh $(X86) "$$EARLIER"

bench-peers: $(X86) tools
	@tests/tools peers
	@sh plain/peers.sh $(X86)

bench-stack: $(X86) tools
	@CC=tests/x86cc RUN=tests/x86 sh plain/stack.sh $(X86)

bench-place: $(X86) tools
	@sh plain/place.sh $(X86)

bench-cells: $(X86) tools
	@tests/c_face cells

mutants: kit
	@tests/mutants.py --whole

must-fail: kit
	@tests/must_fail.py --all --whole

edits-list:
	@tests/must_fail.py --list > docs/EDITS.md.new && mv docs/EDITS.md.new docs/EDITS.md

clean:
	rm -rf target crates/*/out
