#!/usr/bin/env python3
"""counts.py: the instructions of each job of the benchmark, counted by valgrind's callgrind: proved code, plain C by gcc -O2 and by clang -O2, and the ratios.

    counts.py [PROGRAM ..]     of target/bench; all if none is named

A count is of one call, on average over a run; it is the same each time, however busy the machine is. The files and clients of the record are in random order.
"""
import glob
import os
import re
import subprocess
import sys
import tempfile

PROGRAMS = ["layout", "merge", "commit", "report", "record", "epochs"]
FORMS = 3


def counts(program):
    """Each job with its count of calls and the instructions of each version."""
    with tempfile.TemporaryDirectory() as work:
        out = os.path.join(work, "counts")
        callgrind = ["valgrind", "--tool=callgrind", "--collect-atstart=no", "--toggle-collect=bench_counted", "--dump-after=bench_counted", "--callgrind-out-file=" + out]
        run = subprocess.run(callgrind + ["target/bench/" + program, "counts"], capture_output=True, text=True)
        if run.returncode != 0:
            sys.exit(f"counts: {program}: {run.stderr}")
        dumps = []
        for path in glob.glob(out + ".*"):
            with open(path) as dump:
                text = dump.read()
            dumps.append((int(re.search(r"^part: (\d+)", text, re.M).group(1)), int(re.search(r"^(?:summary|totals): (\d+)", text, re.M).group(1))))
    numbers = [number for _, number in sorted(dumps)]
    jobs = [line.split(" ", 1) for line in run.stdout.splitlines()]
    if len(numbers) < FORMS * len(jobs):
        sys.exit(f"counts: {program}: {len(jobs)} jobs, {len(numbers)} counts")
    for k, (calls, what) in enumerate(jobs):
        yield what, [number / int(calls) for number in numbers[FORMS * k : FORMS * k + FORMS]]


def main():
    print(f"| {'Job, instructions of a call':58} | {'proved':>8} | {'gcc':>8} | ratio | {'clang':>8} | ratio |\n|---|---|---|---|---|---|")
    for program in sys.argv[1:] or PROGRAMS:
        for what, (proved, gcc, clang) in counts(program):
            print(f"| {what:58} | {proved:8.1f} | {gcc:8.1f} | {proved / gcc:5.2f} | {clang:8.1f} | {proved / clang:5.2f} |", flush=True)


if __name__ == "__main__":
    main()
