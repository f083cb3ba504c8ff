#!/bin/sh
# Builds the test of the epochs library and runs it: tests/epochs/run.sh [SEED]. The archive comes from `make`.
set -e
cd "$(dirname "$0")/../.."
mkdir -p target/tests
tests/plain/build.sh gcc plain
gcc -std=c11 -O2 -Wall -Wextra -Werror -Iinclude -Itests/plain -o target/tests/epochs tests/epochs/epochs.c target/plain/plain.a build/libstellcircle.a
target/tests/epochs tests/captures/ganesha-epochs.txt "$@"
