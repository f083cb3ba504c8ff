#!/usr/bin/env python3
"""exports.py: each C call of stellcircle_c calls the library's function of its name, with its own parameters in their order, and states the same clauses.

The prover shows that an export meets the clauses that stand at it; that these are the library's, and none is left out, is compared here as text.
"""
import glob
import re
import sys

CLAUSES = re.compile(r"^\s*(requires|ensures)\b", re.M)


def functions(path, pattern):
    """Name, parameters with their types, answer, clauses and body of each function whose first line the pattern begins."""
    with open(path, encoding="utf-8") as f:
        text = re.sub(r"//[^\n]*", "", f.read())
    for m in re.finditer(pattern + r" fn (sc_\w+)\((.*?)\)(?: -> (\w+))?\n(.*?)^\{\n(.*?)^\}", text, re.M | re.S):
        name, parameters, answer, clauses, body = m.groups()
        yield name, [" ".join(p.split()) for p in parameters.split(",") if p.strip()], answer, " ".join(clauses.split()), " ".join(body.split())


def main():
    exports = {f[0]: f[1:] for p in glob.glob("crates/stellcircle_c/src/*.rt") for f in functions(p, r'#\[unsafe\(no_mangle\)\]\npub extern "C"')}
    library = {}
    for path in glob.glob("crates/*/src/*.rt"):
        if "/stellcircle_c/" not in path:
            for f in functions(path, r"^pub"):
                library[f[0]] = (path.split("/")[1],) + f[1:]
    bad = sorted(set(exports) ^ set(library))
    for name in sorted(set(exports) & set(library)):
        parameters, answer, clauses, body = exports[name]
        crate, *theirs = library[name]
        names = [p.split(":")[0] for p in parameters]
        call = re.fullmatch(rf"{crate}::(?:\w+::)?{name}\((.*?),? ?\)", body)
        given = [a.strip() for a in call.group(1).split(",")] if call else None
        if [parameters, answer, clauses] != theirs[:3] or given != names or not CLAUSES.search(clauses):
            bad.append(name)
    for name in bad:
        print(f"exports: {name} is not the library's function of that name")
    print(f"exports: {len(exports)} C calls, {len(bad)} of them other than the library's")
    return 1 if bad or not exports else 0


if __name__ == "__main__":
    sys.exit(main())
