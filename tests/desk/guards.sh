#!/bin/sh
# guards.sh: builds replay with scribble.c between it and the libraries, and sees that it exits with 3 for each promise that scribble breaks,
# and with 0 where it breaks none. Prints one line; exits 1 if a broken promise goes unnoticed. CC, INCLUDE and LIBRARIES: see libraries.sh.
set -u
desk=$(cd "$(dirname "$0")" && pwd)
. "$desk/libraries.sh"
work=$(mktemp -d)
trap 'rm -rf "$work"' EXIT

wrapped=$(sed -n 's/^[a-z0-9_]* __real_\([a-z_]*\)(.*/-Wl,--wrap=\1/p' "$desk/scribble.c")
${CC:-cc} -std=c11 -O1 -Wall -Wextra -Wpedantic -Werror -I"$include" $wrapped -o "$work/replay" "$top/host/replay.c" "$desk/scribble.c" $libraries || exit 1

if ! "$work/replay" < "$desk/marked.txt" | cmp - "$desk/marked.expected"; then
    echo "guards: FAILED: replay differs with nothing broken"
    exit 1
fi
# Calls that meet every promise: short and long listings, replies of each kind.
cat "$desk/marked.txt" "$desk/lines.txt" "$desk/proxies.txt" "$desk/counts.txt" "$desk/stateids.txt" > "$work/script"
echo >> "$work/script"
printf 'fresh\nregister 7 %032d\nopen 7 1\nrestart\nend\nresilver 3 3\nresilver 3 3 lowest\nresilver 0 3 lowest\nresilver 3 0 lowest\nlayoutreturn 7 1 30 -\nlayoutreturn 7 1 3 -\n' 1 >> "$work/script"
number=0
for promise in $(grep -o '\(scribble\|breaks\)("[a-z0-9-]*"' "$desk/scribble.c" | cut -d'"' -f2 | sort -u); do
    SCRIBBLE=$promise "$work/replay" < "$work/script" > "$work/output" 2> "$work/message"
    status=$?
    if [ $status -ne 3 ] || ! grep -q '^stellcircle-replay: line [0-9]*: ' "$work/message"; then
        echo "guards: FAILED: $promise: exit status $status: $(cat "$work/message")"
        exit 1
    fi
    number=$((number + 1))
done
echo "guards: $number broken promises, each noticed"
