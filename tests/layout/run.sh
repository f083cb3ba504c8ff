#!/bin/sh
# Builds the test of the layout check and writer and runs it on the captured bodies. The archive comes from `make`.
set -e
cd "$(dirname "$0")/../.."
mkdir -p target/tests
tests/plain/build.sh gcc plain
gcc -std=c11 -O2 -Wall -Wextra -Wpedantic -Werror -Iinclude -Itests/plain -o target/tests/layout tests/layout/layout.c target/plain/plain.a build/libstellcircle.a
target/tests/layout tests/captures/layout-bodies.txt
