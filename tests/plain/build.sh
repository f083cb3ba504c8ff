#!/bin/sh
# build.sh COMPILER PREFIX: compiles the plain versions by COMPILER -O2 into target/plain/PREFIX.a; each function's name begins with PREFIX_.
set -e
cd "$(dirname "$0")/../.."
mkdir -p target/plain
rm -f "target/plain/$2.a"
for source in layout merge commit layoutreturn record epochs; do
    "$1" -std=c11 -O2 -Wall -Wextra -Wpedantic -Werror -DNAME="$2_" -c -o "target/plain/$2_$source.o" "tests/plain/$source.c"
    ar rc "target/plain/$2.a" "target/plain/$2_$source.o"
done
