#!/bin/sh
# gate.sh: rt ci over every crate, at the top of the checkout. It fails where rt ci fails, and where one of its must-fail edits is bad: one that cannot be
# applied or read, which rt ci counts for nothing and passes. Its last line is rt ci's.
cd "$(dirname "$0")/.." || exit 1
mkdir -p target
{
    rt ci
    echo $? > target/ci.status
} 2>&1 | tee target/ci.log
if grep -Eq '^rt: ok.*, [1-9][0-9]* bad' target/ci.log; then
    echo "gate: a must-fail edit is bad"
    exit 1
fi
exit "$(cat target/ci.status)"
