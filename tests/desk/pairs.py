#!/usr/bin/env python3
"""Ticket 14, run: a restart once more inside a grace period takes no file off the list at its end, and clears no blame.

    pairs.py SCRIPT ONCE TWICE     SCRIPT is gen's `pairs`; ONCE is what a program prints for it, TWICE what it prints with a restart at each `# once more`

Each history ends with the end of grace and the resilver list. Every file of the first list has to be on the second, and its source may not be a
lower place there: of blame a list shows the lowest place without it. Prints one line; exits 1 at the first pair that fails, and where too few pairs differ
for the comparison to mean something.
"""
import sys


def histories(script):
    """How many lines each history prints, without one for the restart once more."""
    counts = []
    for line in script:
        words = line.replace(b"\t", b" ").replace(b"\r", b" ").split()
        if line.rstrip(b"\n") in (b"fresh", b"fresh old"):
            counts.append(0)
        if words and not words[0].startswith(b"#"):
            counts[-1] += 1
    return counts


def lists(output, counts):
    """The list that each history ends with: file to source."""
    for count in counts:
        answers = [output.readline() for _ in range(count)]
        words = answers[-1].split()
        if words[:1] != [b"0"] or int(words[1]) != len(words) - 2:
            sys.exit(f"pairs: a history ends with {answers[-1]!r}")
        yield dict(tuple(map(int, word.split(b":"))) for word in words[2:])
    if output.read(1):
        sys.exit("pairs: an output has more lines than its script")


def main():
    with open(sys.argv[1], "rb") as script:
        counts = histories(script)
    pairs = longer = later = 0
    with open(sys.argv[2], "rb") as once, open(sys.argv[3], "rb") as twice:
        for first, second in zip(lists(once, counts), lists(twice, [count + 1 for count in counts])):
            pairs += 1
            for file, source in first.items():
                if file not in second or second[file] < source:
                    sys.exit(f"pairs: history {pairs}: {first} once, {second} with one more restart")
            longer += len(second) > len(first)
            later += any(second[file] > source for file, source in first.items())
    if longer < pairs // 20:
        sys.exit(f"pairs: only {longer} of {pairs} lists are longer with one more restart")
    print(f"pairs: {pairs} histories with and without one more restart: no file and no blame lost; {longer} lists are longer, {later} have a later source")


if __name__ == "__main__":
    main()
