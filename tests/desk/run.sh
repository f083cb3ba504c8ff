#!/bin/sh
# run.sh REPLAY SECOND [SEEDS]: runs every script of the desk on both programs, compares what they print, prints one line for each part,
# and exits 1 on any difference. SEEDS is how many random scripts of 100,000 calls are run, 12 if it is not given.
# Needs python3 and Debian's rustc.
set -u
export LC_ALL=C
if [ $# -lt 2 ]; then
    echo "usage: run.sh REPLAY SECOND [SEEDS]" >&2
    exit 2
fi
replay=$1 second=$2 seeds=${3:-12}
desk=$(cd "$(dirname "$0")" && pwd)
work=$(mktemp -d)
trap 'rm -rf "$work"' EXIT
failed=0

# part NAME OUTCOME: one line for a part of the run.
part() {
    echo "$1: $2"
}

# fails NAME WHY: the line for a part that failed.
fails() {
    part "$1" "FAILED: $2"
    failed=1
}

# both NAME SCRIPT: runs a script on both programs, into $work/replay and $work/second; false if one fails or they differ.
both() {
    "$replay" < "$2" > "$work/replay"
    status=$?
    "$second" < "$2" > "$work/second"
    other=$?
    if [ $status -ne 0 ] || [ $other -ne 0 ]; then
        fails "$1" "replay exits with $status, the second program with $other"
        return 1
    fi
    if ! cmp "$work/replay" "$work/second"; then
        fails "$1" "the two programs differ"
        return 1
    fi
}

# expected NAME SCRIPT EXPECTED: both programs, and what they have to print.
expected() {
    both "$1" "$2" || return
    if cmp "$work/replay" "$3"; then
        part "$1" "$(wc -l < "$3") answers, as expected from both"
    else
        fails "$1" "not the expected output"
    fi
}

# captured NAME [highest|proxy]: a capture, whose lists are asked for the lowest by name, or not at all, which gives the highest; or whose files have a proxy.
captured() {
    if python3 "$desk/captures.py" "$1" "$desk/../captures/$1.txt" "$work/script" "$work/expected" "${2:-lowest}"; then
        expected "$1${2:+, $2}" "$work/script" "$work/expected"
    else
        fails "$1" "no script"
    fi
}

# random SEED: one random script; its answers are added to the counts.
random() {
    "$work/gen" "$1" 100000 > "$work/script" || { fails "random $1" "no script"; return; }
    both "random $1" "$work/script" || return
    python3 "$desk/histogram.py" "$work/counts" "$work/script" "$work/replay" || { fails "random $1" "answers can't be counted"; return; }
    part "random $1" "$(wc -l < "$work/replay") answers, the same from both"
}

for name in incident marked lines directions proxies counts stateids; do
    expected "$name" "$desk/$name.txt" "$desk/$name.expected"
done
for name in layout-bodies linux-layoutcommit layoutreturn-damaged linux-layoutreturn ganesha-epochs; do
    captured "$name"
done
for name in layoutreturn-damaged linux-layoutreturn; do
    captured "$name" highest
    captured "$name" proxy
done
# pairs COUNT: so many histories with and without one more restart (Ticket 14), on both programs, and the two lists of each compared.
pairs() {
    "$work/gen" pairs 14 "$1" > "$work/script" || { fails "pairs" "no script"; return; }
    both "pairs, once" "$work/script" || return
    mv "$work/replay" "$work/once"
    sed 's/^# once more$/restart/' "$work/script" > "$work/twice-script"
    both "pairs, twice" "$work/twice-script" || return
    python3 "$desk/pairs.py" "$work/script" "$work/once" "$work/replay" || fails "pairs" "a file or a blame is lost"
}

if "$desk/../rustc.sh" -O -o "$work/gen" "$desk/gen/main.rs"; then
    pairs 12000
    seed=1
    while [ "$seed" -le "$seeds" ]; do
        random "$seed"
        seed=$((seed + 1))
    done
    if [ $failed -eq 0 ]; then
        python3 "$desk/histogram.py" "$work/counts" || fails "histogram" "an answer was not reached"
    fi
else
    fails "random" "the generator does not build"
fi
exit $failed
