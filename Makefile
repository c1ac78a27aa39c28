# make           prove all crates and build the programs to target/bin
# make demo      build, and run `ask` and `all` on the examples that are shipped
# make examples  make the examples' record files anew from their texts
# make test      the whole test: the gate, the second program, the examples
# make compare SEED=7 CASES=20000    the programs against the second one, on other random cases
# make bench     how fast, as ratios
SHELL := /bin/bash
.SHELLFLAGS := -eu -o pipefail -c
export CARGO_TARGET_DIR := target/second
SEED ?= 1
CASES ?= 4000
CARGO := cargo --quiet
SECOND := target/second/release/second
PROGRAMS := ask all check_answer encode

.PHONY: build collect demo examples test compare second unchanged bench

build:
	@rt all check
	@for program in $(PROGRAMS); do (cd crates/$$program; rt run -- --help > /dev/null); done
	@$(MAKE) --no-print-directory collect

# each program under the name that it goes by: the kit has a library `check`, so that crate is `check_answer`
collect:
	@mkdir -p target/bin
	@for program in $(PROGRAMS); do cp crates/$$program/out/$$program target/bin/$${program%_answer}; done

demo: build
	@echo; echo '$$ ask may target/demo.answer examples/valves/station*.rec'
	@target/bin/ask may target/demo.answer examples/valves/station*.rec || true
	@echo; echo '$$ all examples/valves/station*.rec'
	@target/bin/all examples/valves/station*.rec
	@echo; echo '$$ ask may target/demo.answer examples/astray/station*.rec'
	@target/bin/ask may target/demo.answer examples/astray/station*.rec || true
	@echo; echo '$$ ask may target/demo.answer examples/crossed/station*.rec'
	@target/bin/ask may target/demo.answer examples/crossed/station*.rec || true

examples:
	examples/encode-all

# the record files that are shipped are those that their texts make
unchanged:
	@made=$$(mktemp -d); trap 'rm -rf "$$made"' EXIT; cp -r examples/. "$$made"; rm "$$made"/*/*.rec; \
	examples/encode-all "$$made"; diff -r examples "$$made"; echo 'examples: as their texts make them'

second:
	@$(CARGO) build --release --offline --locked --manifest-path second/Cargo.toml

compare: second
	@$(SECOND) compare target/bin --seed $(SEED) --cases $(CASES)

bench: second
	@bench/run

# `rt ci` leaves the programs that it proved in crates/*/out; its last line comes last
test:
	@log=$$(mktemp); trap 'rm -f "$$log"' EXIT; \
	rt ci 2>&1 | tee "$$log"; \
	if grep -q '^rt: ok.*, [0-9]* bad' "$$log"; then echo 'test: an edit that must be refused is no edit'; exit 1; fi; \
	$(MAKE) --no-print-directory collect; \
	$(CARGO) test --release --offline --locked --manifest-path second/Cargo.toml; \
	$(MAKE) --no-print-directory compare unchanged; \
	tail -n 1 "$$log" | grep -x '[0-9]* passed, 0 failed'
