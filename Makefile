# The front door: `make` lists the commands. Each is one line that can be typed as well.
.POSIX:
.PHONY: help check library programs quick gate count lint fmt test header statements dist
.PHONY: bench journals instructions copies costs hostile fuzz coverage faults pictures

help: ## this list
	@sed -n 's/^\([a-z]*\):.*## /\1	/p' Makefile | while IFS='	' read -r name text; do printf '  make %-14s%s\n' "$$name" "$$text"; done

check: ## prove every crate that changed
	rt all check

library: ## prove and build the static library, target/staticlib/libabi.a
	tools/build.sh abi

programs: ## prove and build the programs, target/bin
	tools/build.sh mtrrun mtrwhy mtrsum mtrask

quick: ## the gate without the edits, over what is proved: for work in between
	.ci/run --quick

gate: ## the merge gate
	.ci/run

count: ## the present numbers of crates, edits and tests, in the form of .ci/least
	.ci/run --count

lint: ## lint of everything, as the gate asks for it
	.ci/run --lint

fmt: ## rt fmt and cargo fmt
	for crate in crates/*/; do (cd "$$crate" && rt fmt) || exit; done
	cargo fmt --all

# Where it is missing; after a change of the crates: make library.
target/staticlib/libabi.a:
	tools/build.sh abi

test: target/staticlib/libabi.a ## the Rust tests (after make programs: some run them)
	cargo test --offline --release

header: ## write include/mtr.h and rust/mtr/src/raw.rs from the Rattle sources
	cargo run --offline --release -p boundary

statements: target/staticlib/libabi.a ## write docs/statements.txt, what the theorems of docs/PROOFS.md say
	cargo run --offline --release -p check --example statements

dist: ## fill dist/, the folder to vendor
	./dist.sh

bench: target/staticlib/libabi.a ## times of the library beside the model's
	rust/bench/bench.sh

journals: target/staticlib/libabi.a ## speed of mtrrun beside the model's replay
	rust/bench/bench.sh journals

instructions: target/staticlib/libabi.a ## instructions of each call (valgrind)
	rust/bench/callgrind.sh

copies: target/staticlib/libabi.a ## copies in the library's machine code
	rust/bench/copies.sh

costs: target/staticlib/libabi.a ## measure the header's table of stack and instructions again (valgrind)
	rust/bench/costs.sh

hostile: target/staticlib/libabi.a ## arbitrary bytes and arguments to every function, for a minute or FOR= seconds
	cargo run --offline --release -p check --example hostile -- $${FOR:-60}

fuzz: ## fuzz block reading and replay, for ten minutes or FOR= seconds (clang)
	rust/check/fuzz/build.sh
	rust/check/fuzz/run.sh $${FOR:-600}

coverage: ## edges of the library that the hostile host reaches (clang)
	rust/check/fuzz/coverage.sh

faults: target/staticlib/libabi.a ## set faults into a copy of the tree and see that some test notices each (after make programs)
	rust/check/faults/run.sh

pictures: target/staticlib/libabi.a ## write the shipped journals and their pictures again
	cargo run --offline --release -p journal --example cases -- --renew
