# `make help` lists the targets. build/ has what is built, target/ what the tests make, crates/*/out what the prover makes; all can be removed.
CC = gcc
PREFIX = /usr/local
DESTDIR =
SECONDS = 3600

SOURCES := crates.txt $(shell find crates \( -name must-fail -o -name out \) -prune -o -type f -print)
VERSION := $(shell sed -n 's/^\#define SC_VERSION_[A-Z]* //p' include/stellcircle.h | paste -sd.)
WARNINGS = -Wall -Wextra -Wpedantic -Werror

.DEFAULT_GOAL := build
.PHONY: build run test bench bench-counts fuzz install fmt clean help

build: build/libstellcircle.a build/list_layout build/list_rdma_layout build/stellcircle-replay ## proves the libraries and the programs, and builds them and the C host (the default)

# the archive; the programs are made beside it
build/libstellcircle.a: $(SOURCES) tests/build.sh
	@tests/setup.sh build
	@tests/build.sh

build/list_layout build/list_rdma_layout: build/libstellcircle.a
	@test -x $@ || tests/build.sh
	@touch $@

build/stellcircle-replay: host/replay.c include/stellcircle.h build/libstellcircle.a
	@$(CC) -std=c11 -O2 $(WARNINGS) -Iinclude -o $@ host/replay.c build/libstellcircle.a

run: build ## lists a sample layout body and replays an incident, each call beside its answer
	@tests/show.sh

test: setup-test build ## every test, and last the gate: rt ci
	@tests/all.sh
	@tests/gate.sh

bench: setup-bench build ## times the libraries beside plain C, in one process
	@bench/run.sh

bench-counts: setup-counts build ## counts the instructions of the same jobs, by valgrind
	@bench/build.sh
	@bench/counts.py

fuzz: setup-test build ## a long coverage-guided run of the wire checks: SECONDS=3600
	@tests/fuzz/run.sh $(SECONDS)

setup-%:
	@tests/setup.sh $*

install: build ## header, archive, programs, man pages and pkg-config file below PREFIX=/usr/local
	@install -d $(DESTDIR)$(PREFIX)/include $(DESTDIR)$(PREFIX)/lib/pkgconfig $(DESTDIR)$(PREFIX)/bin $(DESTDIR)$(PREFIX)/share/man/man1
	@install -m 644 include/stellcircle.h $(DESTDIR)$(PREFIX)/include/
	@install -m 644 build/libstellcircle.a $(DESTDIR)$(PREFIX)/lib/
	@sed 's|@PREFIX@|$(PREFIX)|; s|@VERSION@|$(VERSION)|' stellcircle.pc.in > $(DESTDIR)$(PREFIX)/lib/pkgconfig/stellcircle.pc
	@install -m 755 build/list_layout build/list_rdma_layout build/stellcircle-replay $(DESTDIR)$(PREFIX)/bin/
	@install -m 644 man/list_layout.1 man/list_rdma_layout.1 man/stellcircle-replay.1 $(DESTDIR)$(PREFIX)/share/man/man1/

fmt: ## formats the Rattle files
	@for crate in crates/*/; do (cd "$$crate" && rt fmt) || exit 1; done

clean: ## removes build/, target/ and what the prover made
	rm -rf build target crates/*/out

help: ## lists the targets
	@sed -n 's/^\([a-z-]*\):.*## \(.*\)/\1|\2/p' Makefile | awk -F'|' '{ printf "  make %-13s %s\n", $$1, $$2 }'
