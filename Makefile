# `make` lists the targets.

PREFIX ?= /usr/local

.DEFAULT_GOAL := help
.PHONY: help run build test docs tools-test compare memory hostile bench controls fmt install clean

help: ## list these targets
	@echo "README.md is the first page. The targets:"
	@awk -F ':.*## ' '/^[a-z-]+:.*## / { printf "make %-12s %s\n", $$1, $$2 }' Makefile

run: ## run two examples: with ./maxpressure where it is built, else at once as an unproved trial
	@bash examples/run.sh

build: ## prove the program and build ./maxpressure (from nothing half an hour of processor time and more)
	@echo "Proving and building: from nothing half an hour of processor time and more, else what has changed."
	cd crates/maxpressure && rt run -- show ../../examples/two-links.toml > /dev/null
	install -m 755 crates/maxpressure/out/maxpressure maxpressure

test: ## the gate: proofs, wrong bodies, tests, runs, documents (from nothing 35 minutes on 4 processors)
	bash .ci/run

docs: maxpressure ## compare each output in the documents with what ./maxpressure prints
	python3 .ci/documents.py maxpressure

tools-test: ## test the Python tools in tools/
	bash tools/test.sh

compare: maxpressure ## compare ./maxpressure with a slow model over 1,000 networks, and attack 1,000 guards (4 minutes)
	python3 -B .ci/compare.py maxpressure 1000

memory: maxpressure ## refuse ./maxpressure each request of memory, in each command (2 minutes)
	python3 -B .ci/memory.py maxpressure

hostile: maxpressure ## hand ./maxpressure 1,000,000 hostile texts (40 minutes; HOSTILE="--count 20000" for fewer)
	python3 -B .ci/hostile.py maxpressure $(HOSTILE)

bench: ## time ./maxpressure beside plain Rust, and print the table of docs/speed.md
	bash bench/run.sh

controls: ## check that each law is refused where it is sharpened (3 minutes; not in the gate)
	sh crates/mp_controls/sharper.sh

fmt: ## lay out the sources of all crates
	for crate in crates/*/; do (cd "$$crate" && rt fmt) || exit 1; done

install: maxpressure ## copy ./maxpressure to PREFIX/bin (PREFIX=/usr/local)
	install -D -m 755 maxpressure "$(DESTDIR)$(PREFIX)/bin/maxpressure"

clean: ## remove ./maxpressure and what was proved and built here
	rm -rf maxpressure crates/*/out bench/out

maxpressure:
	@echo "./maxpressure is not there: 'make build' proves and builds it"; exit 2
