#!/bin/sh
# sanitize.sh SECOND: builds the C of the desk with the address and undefined-behaviour sanitizers, runs the incident, the fixed scripts and
# a short random one, and compares; prints one line for each part and exits 1 on any failure. CC, INCLUDE and LIBRARIES: see libraries.sh.
set -u
if [ $# -ne 1 ]; then
    echo "usage: sanitize.sh SECOND" >&2
    exit 2
fi
desk=$(cd "$(dirname "$0")" && pwd)
. "$desk/libraries.sh"
work=$(mktemp -d)
trap 'rm -rf "$work"' EXIT
failed=0

build() {
    ${CC:-cc} -std=c11 -g -O1 -Wall -Wextra -Wpedantic -Werror -fsanitize=address,undefined -fno-sanitize-recover=all -I"$include" -o "$work/$1" "$2" $libraries
}
build replay "$top/host/replay.c" && build full_epoch "$desk/full_epoch.c" || exit 1

# compare NAME SCRIPT EXPECTED
compare() {
    if "$work/replay" < "$2" > "$work/output" && cmp "$work/output" "$3"; then
        echo "sanitized $1: $(wc -l < "$3") answers, as expected"
    else
        echo "sanitized $1: FAILED"
        failed=1
    fi
}

for name in incident marked lines directions proxies counts stateids; do
    compare "$name" "$desk/$name.txt" "$desk/$name.expected"
done
"$desk/../rustc.sh" -O -o "$work/gen" "$desk/gen/main.rs" && "$work/gen" 99 20000 > "$work/script" && "$1" < "$work/script" > "$work/expected" || exit 1
compare random "$work/script" "$work/expected"
if "$work/full_epoch"; then
    echo "sanitized full_epoch: as expected"
else
    echo "sanitized full_epoch: FAILED"
    failed=1
fi
exit $failed
