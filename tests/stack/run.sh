#!/bin/sh
# Builds the measure of the stack that each call uses and runs it, on the archive that `make` built. The libc's
# functions are bound when the program starts, so that the loader's own work is not counted.
set -e
cd "$(dirname "$0")/../.."
mkdir -p target/tests
gcc -std=c11 -O2 -Wall -Wextra -Werror -Wl,-z,now -Iinclude -o target/tests/stack tests/stack/stack.c build/libstellcircle.a
target/tests/stack
