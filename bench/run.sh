#!/bin/sh
# run.sh: times the proved libraries beside plain C by gcc -O2 and clang -O2, in one process and in turn; a row for each job. Ends with 1 where answers differ
# or a limit is passed.
set -e
cd "$(dirname "$0")/.."
bench/build.sh
failed=0
printf '| %-58s | %8s | %8s | %5s | %8s | %5s |\n|---|---|---|---|---|---|\n' 'Job, least time of a call in ns' proved gcc ratio clang ratio
for program in layout merge commit report record epochs; do
    target/bench/$program || failed=1
done
bench/copies.sh build/libstellcircle.a
[ $failed = 0 ] || echo "bench: an answer differs, or a limit is passed"
exit $failed
