# What people expect: help, run, test, install, archives, bench, mutants, clean. Assumes `rt` on the PATH, cargo and a POSIX shell.
.PHONY: help run test install archives bench mutants clean
.DEFAULT_GOAL := help

PREFIX = /usr/local
export PREFIX DESTDIR

help: ## say what can be made
	@awk -F ':.*## ' '/^[a-z]+:.*## / { printf "  make %-9s %s\n", $$1, $$2 }' Makefile

run: ## prove and build the programs book and vask, and book the slots of a small net
	@sh scripts/first

test: ## show everything that is claimed; ends with 'N passed, 0 failed'
	sh tests/run

install: ## put libvaskunoor.a, its header, vaskunoor.pc and vask under PREFIX (/usr/local)
	@sh scripts/install

archives: ## write the archive for x86-64, aarch64, riscv64 and wasm32 from one proved module
	@sh scripts/archives
	@ls -l target/archives/*/libvaskunoor.a

bench: ## time the proved jobs against a plain program, and measure their stack (x86-64)
	sh tests/bench

mutants: ## make each definition of the model wrong in one place; no part of the tests
	sh tests/mutants

clean: ## remove everything that was built, and what rt keeps of the proofs
	rm -rf target rust/target crates/*/out
