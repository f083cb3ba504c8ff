#!/bin/sh
# all.sh: every test outside the prover, on the archive and the programs that `make` built. Stops at the first that fails.
set -e
cd "$(dirname "$0")/.."
mkdir -p target/tests
tests/exports.py
tests/layout/run.sh
tests/list_layout/run.sh
tests/commit/run.sh
tests/layoutreturn/run.sh
tests/epochs/run.sh
tests/capi/run.sh
tests/stack/run.sh
bench/copies.sh build/libstellcircle.a
tests/install.sh
tests/rustc.sh -O -o target/tests/second tests/second/main.rs
tests/rustc.sh -O --test -o target/tests/examples tests/second/main.rs
target/tests/examples -q > target/tests/examples.log || { cat target/tests/examples.log; exit 1; }
echo "second program: its own tests, K1 to K15 among them, pass"
tests/desk/run.sh build/stellcircle-replay target/tests/second
tests/desk/sanitize.sh target/tests/second
tests/desk/guards.sh
tests/fuzz/run.sh 20
