# make run: replays a log (LOG=path, or the sample Friday, which it then explains). make test: the gate. make long: a replay of a million records.
# make count: docs/PROOFS.md. make fmt: the layout.
# make oracle: the Rust over stand-ins. make vectors: the kept logs and their answers, made by it.
# make compare [N=calls] [SEED=first] [THREADS=n]: the proved library against the oracle. make bench [N=records] [TURNS=n]: its speed.
# make quotients [N=random] [SEED=first] [THREADS=n]: the proved multiply-and-divide against whole numbers of 128 bits.
SHELL := /bin/bash
.ONESHELL:
.SHELLFLAGS := -eu -o pipefail -c
.PHONY: run replay test long count fmt kit oracle vectors native compare quotients bench

LOG ?= $(firstword $(wildcard examples/friday.log) vectors/sample.log)

# rt ends everything else in one line where it is missing
kit:
	@scripts/kit

# proves the program and what it stands on, and builds it, where that has not been done yet; that also runs it, here on no log
replay: kit
	@(cd crates/replay && rt run < /dev/null) > target.log 2>&1 || { cat target.log; rm -f target.log; exit 1; }
	rm -f target.log

run: replay
	@scripts/replay "$(LOG)"
	[ "$(LOG)" != examples/friday.log ] || scripts/explain "$(LOG)"

test: kit
	@scripts/gate

long: replay
	@scripts/long

count: kit
	@scripts/count

fmt: kit
	@for crate in crates/*/; do (cd "$$crate" && rt fmt); done

oracle:
	@scripts/module-text
	cargo build --quiet --offline --release --manifest-path oracle/Cargo.toml

vectors: oracle
	@vectors/make-vectors

# The proved library for this machine, where PASUMORIP_LIB names no other folder that has one.
native:
	@scripts/module-text
	[ -n "$${PASUMORIP_LIB:-}" ] || scripts/native-lib pasumorip > /dev/null

compare: N ?= 100000
compare: SEED ?= 1
compare: THREADS ?=
compare: native
	@cargo build --quiet --offline --release --manifest-path oracle/Cargo.toml --package compare
	oracle/target/release/compare $(N) $(SEED) $(THREADS)

quotients: N ?= 100000000
quotients: SEED ?= 1
quotients: THREADS ?=
quotients:
	@scripts/module-text
	scripts/door > /dev/null
	cargo build --quiet --offline --release --manifest-path oracle/Cargo.toml --package quotients
	oracle/target/release/quotients $(N) $(SEED) $(THREADS)

bench: N ?= 1000000
bench: TURNS ?= 5
bench: native
	@cargo build --quiet --offline --release --manifest-path oracle/Cargo.toml --package measure
	oracle/target/release/measure $(N) $(TURNS)
