# Chachaqom: the library for a host in C, its tests, and what is measured.
#
#   make report SCENE=..               the report on a scene
#   make library                       the archive and the shared library, proved and compiled
#   make test                          everything that is proved and tested
#   make host                          the library's calls checked from C and from C++
#   make compare                       the library compared with the second program, and with its faults
#   make fuzz SEED=.. COUNT=..         the same comparison on other inputs
#   make bench [OBJECT=..]             times beside other refinements
#   make performance                   the documents' picture and tables from the last times
#   make edit SCENE=.. [OUT=..]        the example host: shows a scene, and saves it to OUT
#   make install PREFIX=..             libraries, headers, tools, manual pages and pkg-config file
#   make uninstall PREFIX=..           takes them away again
#   make clean                         removes all that was made
#   make help                          this list
#
# ARCHIVE=.. names another archive than the one that `make library` makes. OBJECT=.. names an object file with
# the calls, made for this machine's own processor: with it `make bench` is native on every machine.

SCENE ?= examples/sector.scene
OUT ?=
PREFIX ?= /usr/local
DESTDIR ?=
SEED ?= 1
COUNT ?= 1000000
OBJECT ?=
ARCHIVE ?= target/staticlib/libchachaqom.a

# What a user gives reaches the recipes through the environment, as it was given: none of it is read as
# make's or the shell's own words.
override SCENE := $(value SCENE)
override OUT := $(value OUT)
override PREFIX := $(value PREFIX)
override DESTDIR := $(value DESTDIR)
override SEED := $(value SEED)
override COUNT := $(value COUNT)
override OBJECT := $(value OBJECT)
export SCENE OUT PREFIX DESTDIR SEED COUNT OBJECT

VERSION := $(shell sed -n 's/^.define CHACHAQOM_VERSION "\(.*\)"/\1/p' include/chachaqom.h)
BUILD = target/c
PROGRAM = target/bin/report
SHARED = $(BUILD)/libchachaqom.so.2
HEADERS = include/chachaqom.h include/chachaqom_text.h
TOOLCHAIN = . tests/toolchain.sh &&
WARNINGS = -Wall -Wextra -Wpedantic -Werror
STRICT_C = -std=c99 $(WARNINGS) -Iinclude
STRICT_CXX = -std=c++11 $(WARNINGS) -Iinclude
SANITIZED = -g -O1 -fsanitize=address,undefined -fno-sanitize-recover=all

.PHONY: library report test host compare fuzz sanitized edit bench performance install uninstall clean help
.DELETE_ON_ERROR:

# ---- what is proved and compiled ----

library: $(ARCHIVE) $(SHARED)

# All that the prover reads: every file and folder of the crates, so that one that went is noticed too, and the kit.
KIT = $(patsubst %/bin/rt,%,$(realpath $(shell command -v rt 2> /dev/null)))
PROVED = crates.txt $(shell find crates -name must-fail -prune -o -name out -prune -o -print) $(wildcard $(KIT)/KIT-ID)

target/staticlib/libchachaqom.a: $(PROVED)
	@tools/prove staticlib chachaqom
	@touch $@

$(PROGRAM): $(PROVED)
	@tools/prove check report
	@touch $@

$(SHARED): $(ARCHIVE) chachaqom.map | $(BUILD)
	$(TOOLCHAIN) $$CC -shared -Wl,-soname,libchachaqom.so.2 -Wl,--version-script=chachaqom.map -Wl,-z,defs \
		-Wl,--whole-archive $(ARCHIVE) -Wl,--no-whole-archive -o $@

# A refused scene is an answer too.
report: $(PROGRAM)
	@tools/report < "$$SCENE" || [ $$? -eq 1 ]

test:
	.ci/run

# ---- checks from C and from C++ ----

host: $(BUILD)/host $(BUILD)/host-in-c++
	$(TOOLCHAIN) $$RUN $(BUILD)/host
	$(TOOLCHAIN) $$RUN $(BUILD)/host-in-c++

HOST = $(wildcard tests/host/*.c)
HOST_READS = $(HOST) $(wildcard tests/host/*.h) include/chachaqom.h

$(BUILD)/host: $(HOST_READS) $(ARCHIVE) | $(BUILD)
	$(TOOLCHAIN) $$CC $(STRICT_C) -O1 -g $(HOST) $(ARCHIVE) -o $@

$(BUILD)/host-in-c++: $(HOST_READS) $(ARCHIVE) | $(BUILD)
	TOOLCHAIN_FOR=tests; $(TOOLCHAIN) $$CXX $(STRICT_CXX) -O1 -g -x c++ $(HOST) -x none $(ARCHIVE) -o $@

# The words for authors, which need no archive.
$(BUILD)/text: tests/text.c $(HEADERS) | $(BUILD)
	$(TOOLCHAIN) $$CC $(STRICT_C) -O1 tests/text.c -o $@

$(BUILD)/text-in-c++: tests/text.c $(HEADERS) | $(BUILD)
	TOOLCHAIN_FOR=tests; $(TOOLCHAIN) $$CXX $(STRICT_CXX) -O1 -x c++ tests/text.c -o $@

# Bound at the start, so that the loader's own work is not measured.
$(BUILD)/stack: tests/stack.c include/chachaqom.h $(ARCHIVE) | $(BUILD)
	$(TOOLCHAIN) $$CC $(STRICT_C) -O1 -Wl,-z,now tests/stack.c $(ARCHIVE) -o $@

# ---- comparison with the second program ----

SECOND = $(wildcard tests/second/*.c)
SECOND_READS = $(SECOND) $(wildcard tests/second/*.h)
COMPARED = $(wildcard tests/compare/*.c) $(SECOND)
COMPARED_READS = $(COMPARED) $(wildcard tests/compare/*.h tests/second/*.h) include/chachaqom.h

compare: $(BUILD)/compare
	$(TOOLCHAIN) $$RUN $(BUILD)/compare
	$(TOOLCHAIN) $$RUN $(BUILD)/compare faults

fuzz: $(BUILD)/compare
	@$(TOOLCHAIN) $$RUN $(BUILD)/compare "$$SEED" "$$COUNT"

$(BUILD)/compare: $(COMPARED_READS) $(ARCHIVE) | $(BUILD)
	$(TOOLCHAIN) $$CC $(STRICT_C) -O2 $(COMPARED) $(ARCHIVE) -o $@

sanitized: $(BUILD)/compare-sanitized

$(BUILD)/compare-sanitized: $(COMPARED_READS) $(ARCHIVE) | $(BUILD)
	$(TOOLCHAIN) $$CC $(STRICT_C) $(SANITIZED) $(COMPARED) $(ARCHIVE) -o $@

# What the report program must print, by the second program.
$(BUILD)/expected: tests/expected.c $(SECOND_READS) | $(BUILD)
	$(TOOLCHAIN) $$CC $(STRICT_C) -O1 tests/expected.c $(SECOND) -o $@

# ---- the example host ----

edit: $(BUILD)/editor
	@$(TOOLCHAIN) $$RUN $(BUILD)/editor "$$SCENE" $${OUT:+"$$OUT"} || [ $$? -eq 1 ]

$(BUILD)/editor: examples/editor.c $(HEADERS) $(ARCHIVE) | $(BUILD)
	$(TOOLCHAIN) $$CC $(STRICT_C) -O2 examples/editor.c $(ARCHIVE) -o $@

# ---- times ----

BENCH_READS = $(wildcard bench/*.c bench/*.h) bench/plain.rs bench/build.sh include/chachaqom.h

bench: $(if $(OBJECT),,$(BUILD)/bench/bench)
	@if [ -n "$$OBJECT" ]; then \
		bench/build.sh $(BUILD)/bench-native "$$OBJECT" native && $(BUILD)/bench-native/bench $(BUILD)/bench.csv 64; \
	else \
		$(TOOLCHAIN) $$RUN $(BUILD)/bench/bench $(BUILD)/bench.csv 64 "$$RUN"; \
	fi && echo "bench: every time is in $(BUILD)/bench.csv; docs/PERFORMANCE.md says what is made of it"

performance:
	bench/tables.py $(BUILD)/bench.csv docs/PERFORMANCE.md write
	bench/picture.py $(BUILD)/bench.csv > docs/performance.svg
	cp $(BUILD)/bench.csv docs/performance.csv

$(BUILD)/bench/bench: $(BENCH_READS) $(ARCHIVE) | $(BUILD)
	bench/build.sh $(BUILD)/bench $(ARCHIVE)

# ---- installation ----

install: $(ARCHIVE) $(SHARED) $(PROGRAM)
	@VERSION=$(VERSION) ARCHIVE=$(ARCHIVE) SHARED=$(SHARED) PROGRAM=$(PROGRAM) tools/install

uninstall:
	@VERSION=$(VERSION) tools/install remove

$(BUILD):
	mkdir -p $@

clean:
	rm -rf target crates/*/out

help:
	@sed -n 's/^#   //p' Makefile
