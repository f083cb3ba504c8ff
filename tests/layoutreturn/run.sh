#!/bin/sh
# run.sh: LAYOUTRETURN through the C functions of build/libstellcircle.a, on tests/captures and made-up requests.
set -eu
cd "$(dirname "$0")/../.."
mkdir -p target/tests
tests/plain/build.sh gcc plain
gcc -std=c11 -O2 -Wall -Wextra -Werror -Iinclude -Itests/plain -o target/tests/layoutreturn tests/layoutreturn/layoutreturn.c target/plain/plain.a build/libstellcircle.a
target/tests/layoutreturn tests/captures/layoutreturn-damaged.txt tests/captures/linux-layoutreturn.txt
