#   make test          every proof and every must-fail edit, and every test
#   make demo          two sessions into a deadlock and out again, in C
#   make replay        tells what happens in a list of steps: FILE=examples/two_sessions.steps;
#                      STEP=10 DOT=waits.dot also writes the waits after step 10 for Graphviz
#   make statement     prints the rollback statement over a list of days: FILE=examples/week.days
#   make lib           the library for C: build/lib/liblockmgr.a, liblockmgr.so and build/include
#   make install       header, libraries and pkg-config file: PREFIX=/usr/local DESTDIR=
#   make proofs        every proof and every must-fail edit alone
#   make model         the tests of the Rust model, and that they notice misreadings of the rules
#   make compare       library and model on the same calls, byte for byte
#   make replays       the replay program and the model on the same inputs, byte for byte
#   make statements    the statement program and the model on the same inputs, byte for byte
#   make ctest         the C tests, with sanitizers and guard pages
#   make workers       the example with threads, also with the thread sanitizer: WORKER_SECONDS=3
#   make install-test  installs into an empty folder and compiles the examples there
#   make replay-test   lists of steps, good and bad
#   make statement-test
#                      lists of days, good and bad
#   make fuzz          the comparison with new seeds: FUZZ_SECONDS=60, SEED=n to repeat one
#   make bench         times of a call beside model, floor and hand-written Rust;
#                      BEFORE=path/to/liblockmgr.a beside an earlier library too
#   make earlier       the library and an earlier one, which need not reopen sessions, on the
#                      same calls, byte for byte: BEFORE=path/to/liblockmgr.a
#   make picture       draws docs/cycle.svg anew (needs Graphviz)
#   make format        lays out all sources anew; make format-check only looks
#   make links         looks whether the links and paths in the documents lead somewhere
#   make clean         removes what was built, and what the prover keeps in the crates
#
# LIB=path takes another library than the one made from the proved crates.

# The library to test.
LIB ?= build/lib/liblockmgr.a

FILE ?=
STEP ?=
DOT ?=
FUZZ_SECONDS ?= 60
SEED ?=
BEFORE ?=
WORKER_SECONDS ?= 3
PREFIX ?= /usr/local
DESTDIR ?=

# A pipe fails where one of its commands does.
SHELL := /bin/bash
.SHELLFLAGS := -o pipefail -c

CC := gcc
CFLAGS ?= -O2 -g
WARNINGS := -std=c99 -D_DEFAULT_SOURCE -Wall -Wextra -Werror
SANITIZE := -fsanitize=address,undefined -fno-sanitize-recover=all

# Cargo builds below build/ too.
export CARGO_TARGET_DIR := $(CURDIR)/build/cargo
export LOCKMGR_LIB := $(abspath $(LIB))

CARGO_MODEL := --manifest-path model/Cargo.toml --release --offline --quiet
CARGO_MISREAD := --manifest-path misread/Cargo.toml --release --offline --quiet
CARGO_COMPARE := --manifest-path compare/Cargo.toml --release --offline --quiet

PROVED := crates.txt $(shell find crates -type f -not -path '*/must-fail/*' -not -path 'crates/*/out/*')

PROGRAMS := replay statement

VERSION := $(shell sed -n 's/^.define LOCKMGR_VERSION "\(.*\)"$$/\1/p' include/lockmgr.h)
SHARED := build/lib/liblockmgr.so.$(VERSION)
# Before 1.0 every minor version may change the interface or a rule.
SONAME := liblockmgr.so.$(basename $(VERSION))

C_TESTS := asan helpers room

.NOTPARALLEL:
.PHONY: help test proofs demo replay statement lib install model compare replays statements ctest workers \
	install-test replay-test statement-test fuzz bench earlier picture format format-check links clean FORCE

# The lines above, up to the first that is no comment.
help:
	@sed -n '/^#/!q; s/^# \{0,1\}//p' $(firstword $(MAKEFILE_LIST))

# The crates are proved first, and the tests run on the library of what was proved. The prover's verdict
# is repeated as the last line.
test: proofs format-check links model compare replays statements ctest workers install-test replay-test \
	statement-test demo
	@tail -n 1 build/proofs.log

# The prover passes a must-fail edit that fits no text any more, though it shows nothing: here it fails. The
# programs are those that the prover has compiled and run.
proofs:
	@mkdir -p build/bin
	@rt ci 2>&1 | tee build/proofs.log
	@if grep '^rt: ok;.*, [1-9][0-9]* bad' build/proofs.log; then grep 'BAD EDIT' build/proofs.log; exit 1; fi
	@set -e; for program in $(PROGRAMS); do cp crates/$$program/out/$$program build/bin/; done

lib: build/lib/liblockmgr.a $(SHARED) build/include/lockmgr.h

# prove NAME, CRATE, COMMAND: what the prover says goes to a log.
define prove
	@command -v rt > /dev/null || { \
		echo "No command rt: the Rattle toolchain, which proves and compiles $(1), is missing."; \
		$(if $(filter liblockmgr,$(1)),echo "With a library that is built already: use LIB=path/to/liblockmgr.a.";) exit 1; }
	@mkdir -p build
	@echo "Proving and compiling $(1). The first time this takes some minutes; see build/$(1).log."
	@(cd crates/$(2) && $(3)) > build/$(1).log 2>&1 || { tail -n 20 build/$(1).log; exit 1; }
endef

# For every x86-64 processor: without --cpu the prover takes a newer one. A copy outlives its folder out/.
build/lib/liblockmgr.a: $(PROVED)
	$(call prove,liblockmgr,lockmgr_c,rt lib --cpu=x86-64)
	@mkdir -p $(@D)
	@cp crates/lockmgr_c/out/liblockmgr_c.a $@

# A program is compiled to be run, so it is run, on nothing.
$(PROGRAMS:%=build/bin/%): build/bin/%: $(PROVED)
	$(call prove,$*,$*,rt run < /dev/null)
	@mkdir -p $(@D)
	@cp crates/$*/out/$* $@

# Made anew each time, since LIB may have been another.
$(SHARED): $(LIB) FORCE
	@mkdir -p $(@D)
	@$(CC) -shared -Wl,--whole-archive $(LIB) -Wl,--no-whole-archive -Wl,-soname,$(SONAME) -o $@

build/include/lockmgr.h: include/lockmgr.h
	@mkdir -p $(@D)
	@cp $< $@

C_NEEDS := build/include/lockmgr.h $(LIB) FORCE

build/bin/two_sessions: examples/two_sessions.c $(C_NEEDS)
	@mkdir -p $(@D)
	@$(CC) $(CFLAGS) $(WARNINGS) -Ibuild/include $< $(LIB) -o $@

build/bin/workers: examples/workers.c $(C_NEEDS)
	@mkdir -p $(@D)
	@$(CC) $(CFLAGS) $(WARNINGS) -Ibuild/include $< $(LIB) -pthread -o $@

build/bin/workers-tsan: examples/workers.c $(C_NEEDS)
	@mkdir -p $(@D)
	@$(CC) $(CFLAGS) $(WARNINGS) -fsanitize=thread -Ibuild/include $< $(LIB) -pthread -o $@

build/bin/trace: tools/trace.c $(C_NEEDS)
	@mkdir -p $(@D)
	@$(CC) $(CFLAGS) $(WARNINGS) -Ibuild/include $< $(LIB) -o $@

$(C_TESTS:%=build/bin/%): build/bin/%: tests/%.c tests/check.h $(C_NEEDS)
	@mkdir -p $(@D)
	@$(CC) $(CFLAGS) $(WARNINGS) $(SANITIZE) -Ibuild/include $< $(LIB) -o $@

demo: build/bin/two_sessions
	@build/bin/two_sessions

model:
	cargo test $(CARGO_MODEL)
	cargo test $(CARGO_MISREAD)

compare: $(LIB)
	cargo test $(CARGO_COMPARE) --test comparison
	cargo run $(CARGO_COMPARE) --bin compare

replays: build/bin/replay $(LIB)
	timeout 600 cargo run $(CARGO_COMPARE) --bin replays -- $(abspath $<)

statements: build/bin/statement $(LIB)
	timeout 600 cargo run $(CARGO_COMPARE) --bin statements -- $(abspath $<)

replay: build/bin/replay build/bin/trace
	@scripts/replay-input "$(or $(FILE),examples/two_sessions.steps)" > build/replay.in
	@build/bin/replay < build/replay.in > build/replay.out
	@build/bin/trace build/replay.in build/replay.out $(if $(DOT),"$(STEP)" "$(DOT)")

statement: build/bin/statement
	@scripts/statement-input "$(or $(FILE),examples/week.days)" > build/statement.in
	@build/bin/statement < build/statement.in

# Each within a minute: a test that hangs has failed. The first makes calls that the comparison writes.
ctest: $(C_TESTS:%=build/bin/%) $(LIB)
	@cargo build $(CARGO_COMPARE) --bin stream
	@echo "C test asan"; cargo run $(CARGO_COMPARE) --bin stream | timeout 60 build/bin/asan
	@set -e; for test in $(filter-out asan,$(C_TESTS)); do \
		echo "C test $$test"; timeout 60 build/bin/$$test; done

# The thread sanitizer is tried on an empty program first: not every machine runs it.
workers: build/bin/workers
	@timeout 60 build/bin/workers $(WORKER_SECONDS) 1
	@if echo 'int main(void) { return 0; }' | $(CC) -fsanitize=thread -x c - -o build/bin/empty-tsan 2> /dev/null \
		&& build/bin/empty-tsan 2> /dev/null; then \
		$(MAKE) --no-print-directory build/bin/workers-tsan && echo "with the thread sanitizer:" \
		&& timeout 60 build/bin/workers-tsan $(WORKER_SECONDS) 2; \
	else echo "no thread sanitizer here"; fi

install: $(LIB) $(SHARED)
	install -d "$(DESTDIR)$(PREFIX)/include" "$(DESTDIR)$(PREFIX)/lib/pkgconfig"
	install -m 644 include/lockmgr.h "$(DESTDIR)$(PREFIX)/include"
	install -m 644 $(LIB) "$(DESTDIR)$(PREFIX)/lib/liblockmgr.a"
	install -m 755 $(SHARED) "$(DESTDIR)$(PREFIX)/lib"
	ln -sf $(notdir $(SHARED)) "$(DESTDIR)$(PREFIX)/lib/$(SONAME)"
	ln -sf $(SONAME) "$(DESTDIR)$(PREFIX)/lib/liblockmgr.so"
	sed 's|@PREFIX@|$(PREFIX)|; s|@VERSION@|$(VERSION)|' lockmgr.pc.in \
		> "$(DESTDIR)$(PREFIX)/lib/pkgconfig/lockmgr.pc"

install-test: $(LIB)
	@timeout 300 tests/install.sh $(LIB)

replay-test: build/bin/replay build/bin/trace
	@timeout 60 tests/replay.sh

statement-test: build/bin/statement
	@timeout 60 tests/statement.sh

fuzz: $(LIB)
	cargo run $(CARGO_COMPARE) --bin fuzz -- $(FUZZ_SECONDS) $(SEED)

# An earlier library has to be a copy: the one that is built is written anew.
bench: $(LIB) $(PROGRAMS:%=build/bin/%)
	@[ -z "$(BEFORE)" ] || { scripts/bench-library "$(BEFORE)" build/bench/before.so \
		&& scripts/bench-library $(LIB) build/bench/library.so; }
	cargo run $(CARGO_COMPARE) --bin bench -- $(if $(BEFORE),$(abspath build/bench/before.so build/bench/library.so))
	cargo run $(CARGO_COMPARE) --bin replays -- $(abspath build/bin/replay) bench
	cargo run $(CARGO_COMPARE) --bin statements -- $(abspath build/bin/statement) bench

earlier: $(LIB)
	@[ -n "$(BEFORE)" ] || { echo "Beside which library? BEFORE=path/to/liblockmgr.a"; exit 1; }
	@scripts/bench-library "$(BEFORE)" build/bench/before.so
	cargo run $(CARGO_COMPARE) --bin earlier -- $(abspath build/bench/before.so)

# The example's cycle, after the step that closes it.
picture:
	@$(MAKE) --no-print-directory replay FILE=examples/two_sessions.steps STEP=10 DOT=build/cycle.dot \
		> build/replay.txt
	dot -Tsvg build/cycle.dot -o docs/cycle.svg

RUST := model misread compare
C_FILES := $(wildcard include/*.h examples/*.c tests/*.[ch] tools/*.c)

format:
	for crate in crates/*/; do (cd $$crate && rt fmt) || exit 1; done
	for package in $(RUST); do cargo fmt --manifest-path $$package/Cargo.toml; done
	clang-format -i $(C_FILES)

# The crates are looked at by the prover. Without clang-format the C files are not looked at.
format-check:
	@set -e; for package in $(RUST); do cargo fmt --check --manifest-path $$package/Cargo.toml; done
	@if command -v clang-format > /dev/null; then \
		clang-format --dry-run -Werror $(C_FILES); \
	else echo "no clang-format here: the layout of the C files is not checked"; fi

links:
	@scripts/check-links

clean:
	rm -rf build crates/*/out
