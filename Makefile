# What there is to do here. `make` alone lists it.
.PHONY: help run test archives bench format clean
.DEFAULT_GOAL := help

help: ## list the targets
	@sed -n 's/^\([a-z]*\):.*## /  make \1\t/p' Makefile

run: ## prove and run the program `places` on the stars of examples/bright.slt
	@mkdir -p target
	@cd crates/places && rt run -- ../../examples/bright.slt <stdin >../../target/run.log 2>&1 || { cat ../../target/run.log; exit 1; }
	@crates/places/out/places examples/bright.slt <crates/places/stdin

test: ## prove all and run all tests: the gate, .ci/run
	@.ci/run

archives: ## prove and write the archives that C links, target/staticlib/libmodule.a among them
	@tests/archives.sh

bench: ## measure the module beside ERFA (needs cc, valgrind and liberfa-dev), and write docs/BENCH.md
	@bench/run.sh

format: ## lay out the Rattle, antt and Rust files
	@for crate in crates/*/; do (cd $$crate && rt fmt) || exit 1; done
	cargo fmt --manifest-path tests/Cargo.toml --all

clean: ## remove what was built
	rm -rf target tests/target crates/*/out
