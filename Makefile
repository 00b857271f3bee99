# make run: the small world built, planned and listed. make quick: what a day's edits may have broken.
# make test: everything that must hold; its last line is rt ci's own.
.PHONY: run test quick kit layout telling reading programs lib install desk near here serve boundary compared fuzz bench

# the calls of crate bahrufaz that the comparison makes
CALLS = build admit plan list

SERVE = target/boundary/serve
SERVED = BAHRUFAZ_SERVE="$(CURDIR)/$(SERVE)" BAHRUFAZ_CALLS="$(CALLS)"
ifneq ($(shell uname -m),x86_64)
SERVED += BAHRUFAZ_EMULATED=1
endif

# runs a step and tells a line for each crate and test; the whole output goes to target/gate
TELL = tests/gate/tell.py

# what proofs, programs and the library are made of
SOURCES := crates.txt $(shell find crates -type f ! -path '*/must-fail/*' ! -path '*/out/*')

run: kit crates/run_tour/out/run_tour crates/run_panel/out/run_panel
	@mkdir -p target/run && cp crates/run_tour/data/* target/run
	@echo; echo "The small world's draft is built into a store, and pattern A is planned (crates/run_tour):"
	@cd target/run && ../../run.sh run_tour
	@echo; echo "The matches of pattern A in that store (crates/run_panel):"
	@cd target/run && ../../run.sh run_panel

test:
	@tests/gate/gate.sh

# the loop of a day's work: the crates that changed and those above them, and the second reading; no edits, no library
quick: kit
	@$(TELL) format -- $(MAKE) --no-print-directory layout
	@$(TELL) contracts -- tests/contracts.sh
	@$(TELL) crates --crates --then reading -- rt all check
	@$(TELL) reading -- $(MAKE) --no-print-directory reading

# says so where another kit is at hand than the one that the project was proved with
kit:
	@command -v rt >/dev/null || { echo "kit: no Rattle kit here: the command rt is not found"; exit 1; }
	@rt version | cmp -s - KIT || echo "kit: proved with $$(cat KIT), and here is another: $$(rt version)"

# whether all files are as rt fmt lays them out, which rt ci asks of each crate; the kit's compiler tells without changing any
layout:
	@"$$(dirname "$$(readlink -f "$$(command -v rt)")")/rattle" fmt --check $(filter %.rt %.antt,$(SOURCES))

# the tests of the gate itself: what it tells, when its last line comes, and what its checks of the documents find
telling:
	python3 -m unittest discover --verbose --start-directory tests/gate
	python3 -m unittest discover --verbose --start-directory tests/pages

# the second reading's own tests; they need no library
reading:
	cargo test --release --offline --manifest-path tests/Cargo.toml --lib --test small_world --test seeds --test large

# a program, proved and built; rt runs it too, in its crate's folder, where it finds no files
crates/run_tour/out/run_tour crates/run_panel/out/run_panel: $(SOURCES)
	@$(TELL) $(@F) --crates $(@F) -- env -C crates/$(@F) rt run
	@touch $@

# the program of the rules, on files that are too long, missing or unreadable
programs: crates/run_panel/out/run_panel
	python3 tests/programs.py

# the library; include/bahrufaz.h says what it has: for x86-64 in target/staticlib, for the processor at hand in target/lib
LIB = target/staticlib/libbahrufaz.a target/lib/libbahrufaz.a target/lib/libbahrufaz.so
lib: $(LIB)

$(LIB) &: lib/here.sh lib/module.sh lib/shared.sh VERSION $(SOURCES)
	@$(MAKE) --no-print-directory kit
	@$(TELL) library --crates bahrufaz -- lib/here.sh

# the command, its man page and completions; headers, libraries for this processor and pkg-config files
VERSION := $(shell cat VERSION)
PREFIX = /usr/local
install: lib
	$(MAKE) --no-print-directory -C examples/c lent
	lib/install.sh $(VERSION) "$(PREFIX)" "$(DESTDIR)"

# what stands before the library: the command and its text forms, the commands that the documents show, Rust, C, installing,
# man page and completions, what the library asks from outside
desk: lib
	cd python && python3 -m unittest discover --verbose --start-directory tests --top-level-directory .
	cargo test --offline --manifest-path rust/Cargo.toml
	$(MAKE) --no-print-directory -C examples/c check
	tests/desk/install.sh
	tests/desk/outside.sh
	tests/desk/pages.sh

ifeq ($(strip $(CALLS)),)
serve boundary fuzz bench:
	@echo "$@: no call is wired in yet (CALLS is empty)"
else
# the program that makes the library's calls for the tests: for x86-64, under an emulator elsewhere
serve: lib
	@mkdir -p $(dir $(SERVE))
	@tools=$$(tests/boundary/tools.sh) && eval "$$tools" && \
	$$CC -std=c11 -O2 -Wall -Wextra -Werror -static -pthread -Iinclude $(addprefix -DHAVE_,$(shell echo $(CALLS) | tr a-z A-Z)) \
		tests/boundary/serve.c target/staticlib/libbahrufaz.a -o $(SERVE).x86-64 && \
	printf '#!/bin/sh\nexec %s "%s"\n' "$$EMULATOR" "$(CURDIR)/$(SERVE).x86-64" >$(SERVE) && chmod +x $(SERVE)

# the library's calls against the second reading; TEST=.. CASE_SEED=.. for one case again. Where the processor is another than x86-64 and
# neither has a compiler for it nor can get one, this says so, and `make desk` alone compares.
boundary:
	@if [ "$$(uname -m)" = x86_64 ] || tests/boundary/tools.sh >/dev/null; then $(MAKE) --no-print-directory compared; \
	else echo "boundary: NOT RUN, no program for x86-64 can be made here"; fi

compared: serve
	$(SERVED) cargo test --release --offline --manifest-path tests/Cargo.toml --test boundary -- --nocapture $(TEST)

# the same program for the processor at hand: on x86-64 that one, elsewhere of the library that is compiled for it
ifeq ($(shell uname -m),x86_64)
NEAR = $(SERVE)
near: serve
else
NEAR = $(SERVE)-here
near: lib
	bench/here.sh $(NEAR) $(CALLS)

desk: here
here: near
	$(NEARLY) cargo test --release --offline --quiet --manifest-path tests/Cargo.toml --test boundary
endif
NEARLY = BAHRUFAZ_SERVE="$(CURDIR)/$(NEAR)" BAHRUFAZ_CALLS="$(CALLS)"

# the library against the second reading on fresh seeds, until it is stopped or SECONDS have passed
fuzz: near
	@$(NEARLY) cargo run --release --offline --quiet --manifest-path tests/Cargo.toml --bin fuzz -- $(SECONDS)

# times of the library's calls and of the second reading
bench: near
	$(NEARLY) cargo run --release --offline --quiet --manifest-path bench/Cargo.toml
endif

include board/board.mk
