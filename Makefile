# The proofs are rt's; this file joins them with what is built around them in Rust and C.
#   make               proves every crate
#   make job           proves and builds the program cutlist, and prints the list of CARD
#   make test          the gate (.ci/run): rt ci, then every test on what it proved and refused; the last line is rt's own
#   make differential  the comparisons in full size          make bench   the speed figures
#   make soak SECONDS=600 SEED=7   comparisons from a seed for a time
#   make fuzz SECONDS=600 SEED=7   any bytes through the exports, between guard pages, led by what they reach
#   make examples      writes examples/ and what crates/replay runs over, from the mended original's answers
#   make fmt           formats Rattle and Rust

# The folder of the Rust original, from the top of the repository.
U_NESTING_SRC ?= ../shared/docs/src/crates/cutting/src
export U_NESTING_SRC
CARD ?= examples/job-41.card
SEED ?= 1
SECONDS ?= 600
# `make test` compares the quick parts in full size, and so many percent of the others.
PERCENT ?= 5

CARGO = cargo
# Without the original the comparisons with it are left out, and say so.
ORIGINAL = $(if $(wildcard $(U_NESTING_SRC)/gtsp.rs),--features original)
TEST = $(CARGO) test --release --offline --quiet
ORACLE = $(CARGO) run --release --offline --quiet --package oracle $(ORIGINAL) --bin

.PHONY: all job test gated hosts no-cargo refusals archives differential bench soak fuzz examples fmt

all:
	rt all check

job:
	cd crates/cutlist && rt run <$(abspath $(CARD))

test:
	@.ci/run

# What .ci/run does once rt ci has passed. That proved every library just now, so the archives below are built over what it left.
gated: export JAMBOLIVE_GATED = yes
gated:
	gate/test.sh
	gate/contracts.sh
	gate/limits.sh
	@$(MAKE) --no-print-directory $(if $(shell command -v $(CARGO)),hosts,no-cargo)
	@$(MAKE) --no-print-directory refusals

# The oracle is built without the original too, so that it still can be where that is not at hand.
hosts: archives
	$(CARGO) check --offline --quiet --package oracle --bins
	$(TEST) --package oracle $(ORIGINAL)
	$(TEST) --package jambolive
	hosts/c/test.sh
	$(ORACLE) differential -- --seed $(SEED) --percent $(PERCENT) --quick-in-full

no-cargo:
	@echo 'the tests from Rust and C are left out: cargo is not on this machine'

# Each wrong program at its own fact: the edits are tried once more, over what rt check keeps of each crate.
refusals:
	@log=$$(mktemp) && trap "rm -f $$log" EXIT && { rt all check >$$log 2>&1 || { cat $$log; exit 1; }; } && echo 'rt all check passed'
	gate/tries.py
	gate/refusals.sh

# The archives that Rust and C link.
archives:
	hosts/native/archive.sh probe host

differential: archives
	$(ORACLE) differential -- --seed $(SEED)

bench: archives
	$(ORACLE) bench
	$(CARGO) bench --offline --quiet --package jambolive --bench calls

soak: archives
	$(ORACLE) differential -- --seed $(SEED) --percent 1 --seconds $(SECONDS)

# Over archives that count which of their code is reached, so that what reaches more is tried further.
fuzz:
	hosts/native/archive.sh --covered host
	$(MAKE) --no-print-directory archives
	cp target/staticlib/libprobe.a target/covered/
	JAMBOLIVE_ARCHIVES=target/covered $(ORACLE) fuzz --features covered --target-dir target/fuzz \
		-- $(SEED) $(SECONDS) target/fuzz.card

examples: $(if $(ORIGINAL),archives)
ifeq ($(ORIGINAL),)
	@echo 'no example is written: the original is not at hand (U_NESTING_SRC)'
else
	$(ORACLE) samples -- crates/replay
endif

fmt:
	for crate in crates/*/; do (cd $$crate && rt fmt) || exit 1; done
	$(CARGO) fmt --all
