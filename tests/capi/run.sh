#!/bin/sh
# Builds the test of the record's calls and runs it: tests/capi/run.sh [SEED]. The archive comes from `make`.
set -e
cd "$(dirname "$0")/../.."
mkdir -p target/tests
tests/plain/build.sh gcc plain
gcc -std=c11 -O2 -Wall -Wextra -Werror -Iinclude -Itests/plain -o target/tests/capi tests/capi/capi.c target/plain/plain.a build/libstellcircle.a
target/tests/capi "$@"
# the header is good C++11 too
echo '#include "stellcircle.h"
int main() { sc_record r; sc_record_fresh(&r); return (int)sc_record_end_grace(&r) - 10033; }' > target/tests/header.cpp
g++ -std=c++11 -Wall -Wextra -Werror -Iinclude -o target/tests/header target/tests/header.cpp build/libstellcircle.a 2> target/tests/header.log || { cat target/tests/header.log; exit 1; }
target/tests/header
