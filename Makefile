# The two commands of the README, and what a developer runs between them.
.PHONY: help demo test check fmt lib examples compare bench fuzz

help:
	@echo "make demo      prove the library, filter a built-in picture with it, write pictures to target/demo"
	@echo "make test      every proof from nothing, every must-fail edit, every program and test: the gate"
	@echo "make lib       prove the library and write target/staticlib/libalf_c.a, for include/alf.h"
	@echo "make bench     the library beside plain C: nanoseconds a sample (some minutes)"
	@echo "make compare   the library beside the independent model, on random input   [ALF_SEED=n] [ALF_CASES=n]"
	@echo "make fuzz      arbitrary arguments for the C interface, long   [RUNS=n] [SEED=n]"
	@echo "make examples  the proved example programs"
	@echo "make check     prove what changed since the last check, without the must-fail edits"
	@echo "make fmt       lay the sources out"

demo: lib
	@echo "Building the demo ..."
	@cd host && cargo build --quiet --release --offline -p demo
	@target/cargo/release/demo --out target/demo
	@echo
	@echo "The pictures are in target/demo."

test:
	@scripts/test.sh

lib:
	@echo "Proving the library (the first time takes some minutes) ..."
	@scripts/build.sh alf_c

bench: lib
	@cd host && cargo build --quiet --release --offline -p bench
	@target/cargo/release/bench $(ARGS)

compare: lib
	@scripts/host-tests.sh

# a hundred times as many runs as the tests have
RUNS ?= 20000000
SEED ?= 1
fuzz: lib
	@scripts/fuzz.sh $(RUNS) $(SEED)

examples:
	@echo "Proving the examples (the first time takes some minutes) ..."
	@scripts/build.sh worked_examples judge_examples filter_examples cross_filters
	@./target/bin/worked_examples
	@./target/bin/judge_examples
	@./target/bin/filter_examples
	@echo "filters of examples/cross_filters/offenders.bank that H.266 can't send: APS id, component, filter"
	@./target/bin/cross_filters < examples/cross_filters/offenders.bank

check:
	rt all check

fmt:
	for crate in crates/*/; do (cd $$crate && rt fmt) || exit 1; done
	cd host && cargo fmt
