#!/usr/bin/env python3
"""port_names.py: brings the repository's own definitions and lemmas to the spelling of today's Rattle: words in snake case.

usage: tools/port_names.py [--list]     at the top of the repository, once, after the kit's port.py

A word that begins in lower case and has a capital inside, as `beNat`, becomes `be_nat`; the parts of a name that a dash joins are turned one by one.
Types, modules, constructors, functions of src/, exported C names, strings and file names stay. It reads the words of crates/*/specs and crates/*/proofs and
of the clauses and `ghost use` lines of src/, and turns the same words in comments, in must-fail edits and in the pages of docs/ and README.md.
It stops before it writes anything where two names of one file would fall together.
"""
import fnmatch
import glob
import os
import re
import sys

WORD = re.compile(r"[^\s(){}\[\],;:.«»⌜⌝\"`|]+")
PART = re.compile(r"^[_◌]?[a-zα-ω]")
INNER = re.compile(r"[a-z0-9'][A-Z]")
# C's and NFS's own words that are no definitions
KEPT = {"pNFS", "mDNS", "iSCSI"}
# Lemmas that would have the new name of the definition that they are about: these end in `_lem`.
LEMMAS = [
    ("crates/commits/proofs/Swept.antt", "turn_by"),
    ("crates/ledger/proofs/*.antt", "first_taken"),
    ("crates/ledger/proofs/*.antt", "has_other"),
    ("crates/ledger/proofs/*.antt", "held_on"),
    ("crates/mirroring/proofs/Summing.antt", "no_room"),
]


def part(p):
    if not PART.match(p) or not INNER.search(p):
        return p
    p = re.sub(r"(?<=[a-z0-9'])([A-Z])", r"_\1", p)
    return re.sub(r"([A-Z])([A-Z][a-z])", r"\1_\2", p).lower()


def turned(word):
    return word if word in KEPT else "-".join(part(p) for p in word.split("-"))


def bare(path, text):
    """The text without comments and strings."""
    if path.endswith(".antt"):
        return re.sub(r"--( |$).*", "", text, flags=re.M)
    return re.sub(r'"(\\.|[^"\\])*"', '""', re.sub(r"//.*", "", text))


def sources():
    for pattern in ("crates/*/specs/**/*.antt", "crates/*/proofs/**/*.antt", "crates/*/src/**/*.rt"):
        yield from sorted(glob.glob(pattern, recursive=True))


def lemmas(path, text):
    """The text with `_lem` after each lemma of LEMMAS, where its name stands by itself."""
    for pattern, name in LEMMAS:
        if fnmatch.fnmatch(path, pattern):
            text = WORD.sub(lambda m: name + "_lem" if m.group(0) == name and text[m.start() - 1 : m.start()] != "." and text[m.end() : m.end() + 1] != "." else m.group(0), text)
    return text


def main():
    names, clash = {}, []
    texts = {}
    for path in sources():
        with open(path, encoding="utf-8") as f:
            texts[path] = lemmas(path, f.read())
        text = bare(path, texts[path])
        words = set(WORD.findall(text))
        # what stands by itself, and is no step of a path and no field
        alone = {m.group(0) for m in WORD.finditer(text) if text[m.start() - 1 : m.start()] != "." and text[m.end() : m.end() + 1] != "."}
        for w in words:
            n = turned(w)
            if n != w:
                names[w] = n
                if n in alone and path.endswith(".antt"):
                    clash.append((path, w, n))
    if len(set(names.values())) != len(names):
        seen = {}
        for w, n in names.items():
            seen.setdefault(n, []).append(w)
        clash += [("two words", a, b) for a, *rest in seen.values() for b in rest]
    if "--list" in sys.argv:
        for w in sorted(names):
            print(w, names[w])
    if clash:
        for c in clash:
            print("falls together:", *c, file=sys.stderr)
        return 1
    if "--list" in sys.argv:
        return 0

    def turn(text):
        return WORD.sub(lambda m: names.get(m.group(0), m.group(0)), text)

    paths = list(texts) + sorted(glob.glob("crates/*/must-fail/*.edit")) + sorted(glob.glob("docs/**/*.md", recursive=True)) + ["README.md"]
    changed = 0
    for path in paths:
        if os.path.basename(path) == "PORT.md":
            continue
        with open(path, encoding="utf-8") as f:
            old = f.read()
        if path.endswith(".rt"):
            new = "".join(t if k % 2 else turn(t) for k, t in enumerate(re.split(r'("(?:\\.|[^"\\])*")', old)))
        else:
            new = turn(texts.get(path, old))
        if new != old:
            changed += 1
            with open(path, "w", encoding="utf-8") as f:
                f.write(new)
    print(f"port_names: {len(names)} names, {changed} files")
    return 0

if __name__ == "__main__":
    raise SystemExit(main())
