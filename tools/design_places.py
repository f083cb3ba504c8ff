#!/usr/bin/env python3
"""design_places.py: the places in src/ that docs/DESIGN-PASS.md counts, point by point, each as FILE:LINE and what stands there.

    design_places.py [POINT ..]     all points if none is named; the last line of each is its count

It goes by text, so that it finds candidates: which of them stay, and why, is said in the page and beside the place.
"""
import glob
import re
import sys
from collections import defaultdict

HEAD = re.compile(r"^( *)(?:pub(?:\(crate\))? )?(?:const )?fn (\w+)")
FIELD = re.compile(r"^\s*(?:pub(?:\(crate\))? )?(\w+): ([^\n]+),\s*$", re.M)


def sources():
    for path in sorted(glob.glob("crates/*/src/*.rt")):
        with open(path, encoding="utf-8") as f:
            yield path, f.read()


def lines(pattern, without=None):
    for path, text in sources():
        for n, line in enumerate(text.splitlines(), 1):
            if re.search(pattern, line) and not line.lstrip().startswith("//") and not (without and re.search(without, line)):
                yield f"{path}:{n}", line.strip()


def functions():
    """Where each function stands, its name, its parameters, its answer, its clauses and its body."""
    for path, text in sources():
        rows = [line.split("//")[0].rstrip() for line in text.splitlines()]
        for n, row in enumerate(rows):
            head = HEAD.match(row)
            if not head:
                continue
            indent = head.group(1)
            begin = n if row.endswith("{") else next((k for k in range(n, len(rows)) if rows[k] == indent + "{"), None)
            end = next((k for k in range(n, len(rows)) if rows[k] == indent + "}"), None)
            if begin is None or end is None or end < begin:
                continue
            lines_of = rows[n:begin] or [row.rstrip("{ ")]
            cut = next((k for k, line in enumerate(lines_of) if re.match(r"\s*(requires|ensures)\b", line)), len(lines_of))
            signature = " ".join(" ".join(lines_of[:cut]).split())
            opened = signature.index("(")
            closed = signature.rindex(")") if "->" not in signature else signature.rindex(")", 0, signature.rindex("->"))
            answer = signature[closed + 1 :].replace("->", "").strip()
            yield f"{path}:{n + 1}", head.group(2), signature[opened + 1 : closed], answer, "\n".join(lines_of[cut:]), "\n".join(rows[begin + 1 : end])


def parameters(text):
    return [" ".join(p.split()) for p in re.split(r",(?![^<\[(]*[>\])])", text) if p.strip()]


def enums_and_numbers():
    """1: own enums; fields that are a flag; fields, answers and arguments that are a number of a refusal."""
    yield from lines(r"^(pub(\(crate\))? )?enum \w")
    yield from lines(r"^    (pub(\(crate\))? )?\w+: bool,$")
    yield from lines(r"\b(status|rule|barred|late|form): u32|-> u32", r"fn sc_|fn (four|be32|raised|from|with|without|put32)\b")


def twins():
    """2: functions of at least 20 tokens whose texts are the same but for names, types and numbers."""
    groups = defaultdict(list)
    for where, name, args, answer, _, body in functions():
        if name.startswith("sc_") and "/stellcircle_c/" in where:
            continue
        tokens = re.findall(r"\w+|[^\w\s]", f"({args}) -> {answer} {{{body}}}")
        names = {}
        shape = " ".join(names.setdefault(t, f"n{len(names)}") if re.match(r"\w", t) and t not in ("if", "else", "while", "return", "let", "mut", "match", "for", "in", "loop") else t for t in tokens)
        if len(tokens) >= 20:
            groups[shape].append((where, name))
    for group in groups.values():
        if len(group) > 1:
            for where, name in group:
                yield where, f"{name}: as {', '.join(n for w, n in group if w != where)}"


def loops():
    """3: loops that are no `for`."""
    yield from lines(r"^\s*(while|loop)\b")


def by_hand():
    """4: what a derive or the library has: functions of numbers, bytes, flags and copies by their names, and wrapping functions of std::num."""
    names = r"larger|smaller|both|either|same|four|join|eight|word|one_if|one_if_byte|chosen|kind_number|number|numbers|is_old|edition|grown_by|passed_by|put_decimal|put_bytes|is_none|left|copy8|device_at|same_device|is_good|none|start|no_run|no_extent|nothing|marked_if|hand_out|sum"
    yield from lines(rf"\bfn ({names})\(")
    yield from lines(r"std::num::wrapping_")
    yield from lines(r"let (own|given) = Stateid \{")


def together():
    """5: facts in the contracts of three functions or more, and parameters that three functions or more have together, three at a time."""
    facts, sets = defaultdict(list), defaultdict(list)
    for where, name, args, _, clauses, _ in functions():
        if "/stellcircle_c/" in where:
            continue
        for clause in re.findall(r"^\s*requires[^{]*\{(.*)\}\s*$", clauses, re.M):
            for fact in re.split(r" × ", clause.strip().strip("()")):
                facts[fact.strip(" ()")].append((where, name))
        ps = parameters(args)
        for i in range(len(ps) - 2):
            sets[tuple(ps[i : i + 3])].append((where, name))
    for fact, where in sorted(facts.items()):
        if len(where) > 2:
            yield where[0][0], f"requires {fact}: in {', '.join(n for _, n in where)}"
    for ps, where in sorted(sets.items()):
        if len(where) > 2:
            yield where[0][0], f"({', '.join(ps)}): in {', '.join(n for _, n in where)}"


def buffers():
    """6: a count or a place beside a buffer or an array, as fields or as parameters."""
    for path, text in sources():
        for m in re.finditer(r"^(?:pub(?:\(crate\))? )?struct (\w+)[^{;]*\{\n(.*?)^\}", text, re.M | re.S):
            types = [t for _, t in FIELD.findall(m.group(2))]
            if any("[" in t for t in types) and any(t in ("usize", "u8", "u64") for t in types):
                yield f"{path}:{text[: m.start()].count(chr(10)) + 1}", f"struct {m.group(1)}"
    for where, name, args, _, _, _ in functions():
        if re.search(r"\b(d|s|body): &(mut )?\[u8\], (at|m|n|count): (usize|u64)", " ".join(args.split())):
            yield where, f"fn {name}"


def switches():
    """7: parameters that choose a step: flags, and a turn's number that says which half of a loop runs."""
    yield from lines(r"\b(write|again|returning|counts|inv|bare|mine|test|anew|faulty|silent|there): bool")
    yield from lines(r"if i < 64 \{")


POINTS = {"1": enums_and_numbers, "2": twins, "3": loops, "4": by_hand, "5": together, "6": buffers, "7": switches}


def main():
    for point in sys.argv[1:] or sorted(POINTS):
        places = list(POINTS[point]())
        for where, what in places:
            print(f"{where}: {what}")
        print(f"point {point}: {len(places)}")


if __name__ == "__main__":
    main()
