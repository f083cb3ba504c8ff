#!/bin/sh
# Builds the test of what the desk can't reach of merging and of LAYOUTCOMMIT and runs it. The archive comes from `make`.
set -e
cd "$(dirname "$0")/../.."
mkdir -p target/tests
tests/plain/build.sh gcc plain
gcc -std=c11 -O2 -Wall -Wextra -Wpedantic -Werror -Iinclude -Itests/plain -o target/tests/commit tests/commit/commit.c target/plain/plain.a build/libstellcircle.a
target/tests/commit
