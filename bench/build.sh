#!/bin/sh
# build.sh: builds the benchmarks, target/bench/{layout,merge,commit,report,record,epochs}, from the proved archive and the plain versions by gcc and by clang.
set -e
cd "$(dirname "$0")/.."
mkdir -p target/bench
tests/plain/build.sh gcc gcc
tests/plain/build.sh clang clang
for program in layout merge commit report record epochs; do
    gcc -std=c11 -O2 -Wall -Wextra -Werror -DLINUX='"tests/captures/linux-layoutreturn.txt"' -Iinclude -Itests/plain -o target/bench/$program bench/$program.c \
        target/plain/gcc.a target/plain/clang.a build/libstellcircle.a
done
