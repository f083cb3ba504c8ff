#!/usr/bin/env python3
"""Shows that the desk would see a wrong program: each edit of mutants.txt makes the second program wrong, and some script has to show it.

    mutants.py [LABEL ..]     all edits, or those named; prints one line for each; exits 1 if one goes unseen

An edit is `label`, `file` (of tests/second), `old` (text that stands once in that file, on one line) and `new`; where one change is not enough, more of
`old` and `new`, as in a program that keeps something which this one does not.
It takes a few minutes and is run by hand, after a change to the generator, the scripts or the second program.
"""
import os
import shutil
import subprocess
import sys
import tempfile

DESK = os.path.dirname(os.path.abspath(__file__))
SECOND = os.path.join(DESK, "..", "second")
RUSTC = os.path.join(DESK, "..", "rustc.sh")
CAPTURES = ["layout-bodies", "linux-layoutcommit", "layoutreturn-damaged", "linux-layoutreturn", "ganesha-epochs"]
RANDOM_CALLS, SEEDS, TIMEOUT = "100000", ["1", "2"], 120


def edits():
    with open(os.path.join(DESK, "mutants.txt")) as text:
        blocks = text.read().strip().split("\n\n")
    for block in blocks:
        lines = [line for line in block.split("\n") if not line.startswith("#")]
        if lines:
            fields = [line.split(": ", 1) for line in lines]
            edit = {name: text for name, text in fields if name in ("label", "file")}
            edit["changes"] = list(zip([text for name, text in fields if name == "old"], [text for name, text in fields if name == "new"]))
            yield edit


def rustc(source, program):
    subprocess.run([RUSTC, "-C", "opt-level=1", "-A", "warnings", "-o", program, source], check=True)


def run(program, script):
    """What a program prints for a script; a program that fails or hangs prints something else than any other."""
    with open(script, "rb") as calls:
        try:
            ended = subprocess.run([program], stdin=calls, capture_output=True, timeout=TIMEOUT)
        except subprocess.TimeoutExpired:
            return b"hangs"
    return ended.stdout if ended.returncode == 0 else b"fails"


def scripts(work):
    """All scripts of the desk, the random ones first: they should see every edit by themselves."""
    rustc(os.path.join(DESK, "gen", "main.rs"), os.path.join(work, "gen"))
    for seed in SEEDS:
        path = os.path.join(work, "random-" + seed)
        with open(path, "wb") as script:
            subprocess.run([os.path.join(work, "gen"), seed, RANDOM_CALLS], stdout=script, check=True)
        yield path
    for name in CAPTURES:
        path = os.path.join(work, name)
        capture = os.path.join(DESK, "..", "captures", name + ".txt")
        subprocess.run([sys.executable, os.path.join(DESK, "captures.py"), name, capture, path, path + ".expected"], check=True)
        yield path
    for name in ["marked", "incident", "lines", "directions", "proxies", "counts", "stateids"]:
        yield os.path.join(DESK, name + ".txt")


def mutant(work, edit):
    """Builds the second program with the edit."""
    source = os.path.join(work, "source")
    shutil.rmtree(source, ignore_errors=True)
    shutil.copytree(SECOND, source)
    path = os.path.join(source, edit["file"])
    with open(path) as file:
        text = file.read()
    for old, new in edit["changes"]:
        if text.count(old) != 1:
            sys.exit(f"mutants: {edit['label']}: the old text stands {text.count(old)} times in {edit['file']}: {old}")
        text = text.replace(old, new)
    with open(path, "w") as file:
        file.write(text)
    rustc(os.path.join(source, "main.rs"), os.path.join(work, "mutant"))
    return os.path.join(work, "mutant")


def main():
    wanted, unseen, number = sys.argv[1:], 0, 0
    with tempfile.TemporaryDirectory() as work:
        rustc(os.path.join(SECOND, "main.rs"), os.path.join(work, "second"))
        right = {script: run(os.path.join(work, "second"), script) for script in scripts(work)}
        for edit in edits():
            if wanted and edit["label"] not in wanted:
                continue
            program = mutant(work, edit)
            seen = next((script for script in right if run(program, script) != right[script]), None)
            print(f"{edit['label']}: {'NOT SEEN' if seen is None else 'seen by ' + os.path.basename(seen)}", flush=True)
            unseen, number = unseen + (seen is None), number + 1
    print(f"{number} edits, {unseen} not seen")
    sys.exit(unseen > 0)


if __name__ == "__main__":
    main()
