#!/bin/sh
# run.sh SECONDS: builds the fuzz target with clang's fuzzer and sanitizers and runs it for so long; prints one line, and exits 1 on any difference from
# plain C, a crash or a touched page. Seeds come from the captures; what earlier runs found stays in target/fuzz/corpus and is used again, and an
# input that fails is kept in target/fuzz. INCLUDE and LIBRARIES: see ../desk/libraries.sh.
set -u
if [ $# -ne 1 ]; then
    echo "usage: run.sh SECONDS" >&2
    exit 2
fi
fuzz=$(cd "$(dirname "$0")" && pwd)
. "$fuzz/../desk/libraries.sh"
folder=$top/target/fuzz
mkdir -p "$folder/corpus"

if ! echo 'int LLVMFuzzerTestOneInput(const char *d, unsigned long n); int LLVMFuzzerTestOneInput(const char *d, unsigned long n) { return n > 9 && *d; }' |
    clang -x c -fsanitize=fuzzer,address,undefined -o "$folder/probe" - 2> "$folder/probe.log"; then
    echo "fuzz: needs clang and its fuzzer runtime: apt-get install clang libclang-rt-14-dev (tests/packages.txt)"
    exit 1
fi
clang -std=c11 -g -O1 -Wall -Wextra -Wpedantic -Werror -fsanitize=fuzzer,address,undefined -fno-sanitize-recover=all -DNAME=plain_ -I"$include" \
    -I"$top/tests/plain" -o "$folder/wire" "$fuzz/wire.c" "$top"/tests/plain/*.c $libraries || exit 1
python3 "$fuzz/corpus.py" "$folder/seeds" || exit 1
if ! "$folder/wire" -max_total_time="$1" -max_len=65536 -timeout=20 -use_value_profile=1 -dict="$fuzz/wire.dict" -print_final_stats=1 \
    -artifact_prefix="$folder/" "$folder/corpus" "$folder/seeds" > "$folder/log" 2>&1; then
    tail -40 "$folder/log"
    echo "fuzz: FAILED"
    exit 1
fi
echo "fuzz: $(sed -n 's/^stat::number_of_executed_units: *//p' "$folder/log") inputs, no difference from plain C"
