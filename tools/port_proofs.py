#!/usr/bin/env python3
"""port_proofs.py CRATE..: turns each Proof.antt that walks the code by hand into Invariants.antt and Answers.antt (today's form).

For each crate: `rt check --generated --old-names` says each goal's old and new name; the invariants and measures are written first, the rest is left to the check;
what the check then leaves open is answered by the old proof's own line, with its steps under their new names. Old files are kept in target/old-proofs/CRATE.
Run at the top of the repository; the crates below must be proved.
"""
import json
import os
import re
import shutil
import subprocess
import sys

TOP = os.getcwd()
OLD = os.path.join(TOP, "target", "old-proofs")
NAME = r"[^\s(){}\[\],;:.«»⌜⌝\"`|]+"


def rt(crate, *words):
    r = subprocess.run(["rt", *words], cwd=os.path.join(TOP, "crates", crate), stdout=subprocess.PIPE, stderr=subprocess.STDOUT, text=True, errors="replace")
    return r.stdout


def norm(s):
    return s.replace("_", "-")


def names_of(crate):
    d = os.path.join(TOP, "target", f"names-{crate}")
    shutil.rmtree(d, ignore_errors=True)
    said = rt(crate, "check", "--generated", d, "--old-names")
    p = os.path.join(d, "names.json")
    if not os.path.exists(p):
        print(said[-3000:])
        raise SystemExit(f"no names for {crate}")
    with open(p) as f:
        return json.load(f)


def key_of(crate, folder):
    """The key of names.json of a proof folder."""
    rel = os.path.relpath(folder, os.path.join(TOP, "crates", crate, "proofs")).replace("/", ".")
    return f"Rattle-{crate}-proofs.{rel}.Lts"


def blocks(text):
    """Header comments, use lines, and declarations: (kind, name, text)."""
    out, cur = [], []
    lines = text.split("\n")
    groups = []
    for l in lines:
        if l.strip() == "":
            if cur:
                groups.append(cur)
            cur = []
        elif not l.startswith(" ") and cur and re.match(r"^(use |module |abbrev |unfoldable |pub |[^\s]+ :)", l) and not re.match(r"^unfolding", l):
            # a new declaration without a blank line between
            first = next((x for x in cur if not x.startswith("--")), None)
            if first is not None and (first.startswith("use ") or l.startswith("use ") or re.match(rf"^(abbrev |unfoldable |pub )*{NAME} :", l)):
                groups.append(cur)
                cur = []
            cur.append(l)
            continue
        if l.strip():
            cur.append(l)
    if cur:
        groups.append(cur)
    head, uses, decls = [], [], []
    for g in groups:
        first = next((x for x in g if not x.startswith("--")), None)
        if first is None:
            head += g
        elif first.startswith("use "):
            head += [x for x in g if x.startswith("--")]
            uses += [x for x in g if x.startswith("use ") or x.startswith(" ")]
        else:
            m = re.match(rf"^((?:abbrev |unfoldable |pub |pattern )*)({NAME}) ?:", first)
            decls.append((m.group(2) if m else None, "\n".join(g)))
    return head, uses, decls


def steps_of(entry):
    return {norm(p[2][0]): p[2][1] for p in entry["places"] if p[2][0]}


def turned(body, entry):
    """A proof's text with flat contexts and today's names of steps."""
    steps = steps_of(entry)
    body = re.sub(r"(\.before)+(?![\w-])", "", body)
    alias = {"c"}
    for _ in range(4):
        for m in re.finditer(rf"({NAME}) = (\w+) in", body):
            if m.group(2) in alias:
                alias.add(m.group(1))
        for m in re.finditer(rf"({NAME}) = (\w+)$", body, re.M):
            if m.group(2) in alias:
                alias.add(m.group(1))

    arms = {}
    for a in entry.get("arms", []):
        if a:
            for field, old, path in a[2]:
                if path:
                    arms[norm(old) + "." + ".".join(norm(x) for x in path)] = a[0] + "." + field

    def arm(m):
        if m.group(1) not in alias:
            return m.group(0)
        path = norm(m.group(2)).split(".")
        for n in range(len(path), 1, -1):
            k = ".".join(path[:n])
            if k in arms:
                return ".".join([m.group(1), arms[k]] + m.group(2).split(".")[n:])
        return m.group(0)

    body = re.sub(rf"(?<![\w.'-])([\w']+)\.({NAME}(?:\.{NAME})+)", arm, body)

    def proj(m):
        if m.group(1) in alias and norm(m.group(2)) in steps:
            return m.group(1) + "." + steps[norm(m.group(2))]
        return m.group(0)

    body = re.sub(rf"(?<![\w.'-])([\w']+)\.({NAME})", proj, body)
    for old, new in entry.get("args", []):
        m = re.match(r"\.args \.(\S+)$", old)
        if m:
            to = new.split(".")[-1]
            body = re.sub(rf"(?<=\.){re.escape(m.group(1))}(?![\w'-])", to, body)
    # a negated condition's step says today what the condition itself is
    atom = r"(?:[\w.'-]+|\([^()]*\))"
    body = re.sub(rf"\(not[-_](true|false) {atom} ([\w']+(?:\.[\w'-]+)*\.(?:if|then|else)-not-[\w-]+\.\w+)\)", r"\2", body)
    return re.sub(rf"not[-_](true|false) {atom} ([\w']+(?:\.[\w'-]+)*\.(?:if|then|else)-not-[\w-]+\.\w+)", r"\2", body)


def invariants(entry, decls):
    """The lines of Invariants.antt, and the names in it."""
    loops = {norm(l[0][0]): (l[0][1], l[1]) for l in entry["loops"]}
    changed = {norm(l[0][0]): ch for l, ch in zip(entry["loops"], entry["changed"])}
    out = []
    for name, text in decls:
        m = re.match(rf"^abbrev (?:pub )?({NAME}) : tie\.(invariant|decreases)-({NAME})\n", text)
        if not m:
            continue
        kind, loop = m.group(2), norm(m.group(3))
        if loop not in loops:
            out.append(f"-- LEFT: {text}")
            continue
        new, vs = loops[loop]
        ch = changed[loop]
        eq = text[m.end():]
        h = re.match(rf"({re.escape(name)}) ([^=]*)= ?", eq)
        params = h.group(2).split()
        body = eq[h.end():]
        want = [("l.initial." if c else "l.") + v for v, c in zip(vs, ch)] + ["l." + v for v, c in zip(vs, ch) if c]
        if len(params) != len(want):
            out.append(f"-- LEFT ({len(params)} names for {len(want)}: {want}): ")
        sub = dict(zip(params, want))
        body = re.sub(rf"(?<![\w.'₀-])({'|'.join(sorted(map(re.escape, params), key=len, reverse=True))})(?![\w'₀-])(?! = )", lambda k: sub[k.group(1)], body) if params else body
        out.append(f"abbrev pub {kind}-{new} : goal.{kind}-{new}\n{kind}-{new} l = {body}")
    return out


def used(words, uses):
    """The use lines whose names are cited in the text, with those names alone."""
    have = set(re.findall(NAME, words)) | set(re.findall(r"[^\s(){}\[\]]+", words))
    ops = set(re.findall(r"[^\w\s(){}.,;'\"-]+", words))
    out = []
    for u in uses:
        m = re.match(r"use (\S+)\.\{(.*)\}$", u)
        if not m:
            m2 = re.match(r"use (\S+) as (\S+)$", u)
            if m2 and re.search(rf"(?<![\w-]){re.escape(m2.group(2))}\.", words) and "Tie" not in u:
                out.append(u)
            continue
        if "Statement" in m.group(1):
            continue
        keep = []
        for n in m.group(2).split(", "):
            parts = [p for p in n.split("◌") if p]
            if "◌" in n and all(p in words for p in parts) or n in have or re.search(rf"(?<![\w-]){re.escape(n)}(?![\w-])", words):
                keep.append(n)
        if keep:
            out.append(f"use {m.group(1)}.{{{', '.join(keep)}}}")
    return out


def find(crate):
    root = os.path.join(TOP, "crates", crate, "proofs")
    for folder, _, files in os.walk(root):
        if "Proof.antt" in files:
            with open(os.path.join(folder, "Proof.antt")) as f:
                text = f.read()
            if "tie.close" in text or "tie.spec" in text:
                yield folder, text


def turn(crate):
    os.makedirs(os.path.join(TOP, "target"), exist_ok=True)
    names = names_of(crate)
    work = {}
    for folder, text in list(find(crate)):
        key = key_of(crate, folder)
        if key not in names:
            print("no names:", key)
            continue
        entry = names[key]
        head, uses, decls = blocks(text)
        rel = os.path.relpath(folder, os.path.join(TOP, "crates", crate, "proofs"))
        needs = {norm(n[0]): n[1] for n in entry["needs"]}
        inv = invariants(entry, decls)
        answers, helpers, lets = {}, [], []
        for name, t in decls:
            m = re.match(rf"^(?:abbrev |pub )*({NAME}) : tie\.Need-({NAME})([^\n]*)\n", t)
            if m:
                old = norm(m.group(2))
                new = needs.get(old) or needs.get(re.sub(r"^overflow-", "", old))
                body = t[m.end():]
                unf = ""
                mu = re.match(r"unfolding [^\n]*\n", body)
                if mu:
                    unf = mu.group(0)
                    body = body[mu.end():]
                h = re.match(rf"{re.escape(name)} (\w+)(?: κs| \w+)? ?= ?", body)
                if not h:
                    answers[new or "?" + old] = (unf, "-- LEFT: " + body)
                    continue
                b = turned(body[h.end():], entry) if h.group(1) == "c" else body[h.end():]
                answers[new or "?" + old] = (unf, b.rstrip())
            elif re.match(rf"^(?:abbrev |pub )*{NAME} : tie\.(invariant|decreases)-", t) or "tie.close" in t or "tie.spec" in t:
                continue
            elif name and re.match(rf"^{re.escape(name)} : \((\w+) : tie\.\S+[^()]*\) → ", t):
                k = re.match(rf"^{re.escape(name)} : \((\w+) : tie\.\S+[^()]*\) → ([^\n]*(?:\n +→[^\n]*)*)\n((?:unfolding [^\n]*\n)?){re.escape(name)} (\w+) ?= ?", t)
                if k and k.group(1) == k.group(4) == "c":
                    lets.append((name, turned(k.group(2), entry), k.group(3), turned(t[k.end():], entry).strip()))
                else:
                    helpers.append((name, t))
            else:
                helpers.append((name, t))
        for g in list(answers):
            unf, b = answers[g]
            pre = []
            for name, ty, u, e in reversed(lets):
                word = rf"(?<![\w.'-]){re.escape(name)} (?:[a-z][\w']*)(?![\w.'-])"
                if re.search(rf"(?<![\w.'-]){re.escape(name)}(?![\w'-])", b + " ".join(x[1] + x[3] for x in pre)):
                    word = rf"\({word}\)|{word}"
                    b = re.sub(word, name, b)
                    pre = [(n, re.sub(word, name, y), v, re.sub(word, name, f)) for n, y, v, f in pre]
                    pre.insert(0, (name, ty, u, e))
            if pre:
                words = " ".join(dict.fromkeys(w for v in [unf] + [x[2] for x in pre] for w in v.split() if w != "unfolding"))
                unf = f"unfolding {words}\n" if words else ""
                b = "\n" + "".join(f"    let {n} : {y} = {f} in\n" for n, y, v, f in pre) + "    " + b.strip()
            answers[g] = (unf, b)
        work[rel] = (head, uses, helpers, answers, entry)
        keep = os.path.join(OLD, crate, rel)
        os.makedirs(keep, exist_ok=True)
        shutil.move(os.path.join(folder, "Proof.antt"), os.path.join(keep, "Proof.antt"))
        if inv:
            body = "\n\n".join(inv)
            hs = [t for n, t in helpers if n and re.search(rf"(?<![\w-]){re.escape(n)}(?![\w-])", body)]
            whole = "\n\n".join(hs + [body])
            lines = head + used(whole, uses) + [f"use Rattle.{crate}.proofs.{rel.replace('/', '.')}.Given as goal", "", whole]
            with open(os.path.join(folder, "Invariants.antt"), "w") as f:
                f.write("\n".join(lines) + "\n")
    with open(os.path.join(TOP, "target", f"work-{crate}.json"), "w") as f:
        json.dump({k: [v[0], v[1], v[2], v[3]] for k, v in work.items()}, f, ensure_ascii=False, indent=1)
    fill(crate)


def fill(crate, turns=0):
    """Answers each goal that the check leaves open by the old proof's line, and says what is left."""
    with open(os.path.join(TOP, "target", f"work-{crate}.json")) as f:
        work = json.load(f)
    said = rt(crate, "check")
    wrote = 0
    for m in re.finditer(r"^help: write \./proofs/(\S+)/(Answers|Invariants)\.antt with these lines.*\n((?:    .*\n)+)", said, re.M):
        rel, kind, lines = m.group(1), m.group(2), m.group(3)
        goals = re.findall(r"^    (?:abbrev )?pub (\S+) : goal\.\S+", lines, re.M)
        if rel not in work:
            print(f"  {rel}: no old proof; open: {' '.join(goals)}")
            continue
        head, uses, helpers, answers = work[rel]
        path = os.path.join(TOP, "crates", crate, "proofs", rel, kind + ".antt")
        if kind == "Invariants":
            print(f"  {rel}: wants invariants {goals}")
            continue
        if os.path.exists(path):
            print(f"  {rel}: has {kind}; open: {goals}")
            continue
        out, miss = [], []
        for g in goals:
            if g in answers:
                unf, b = answers[g]
                out.append(f"pub {g} : goal.{g}\n{unf}{g} c ={'' if b.startswith(chr(10)) else ' '}{b}")
            else:
                miss.append(g)
        if miss:
            print(f"  {rel}: no old line for {miss}; have {sorted(set(answers) - set(goals))}")
        if not out:
            continue
        body = "\n\n".join(out)
        hs, grown = [], True
        while grown:
            grown = False
            for n, t in helpers:
                if n and t not in hs and re.search(rf"(?<![\w-]){re.escape(n)}(?![\w-])", body + "\n".join(hs)):
                    hs.append(t)
                    grown = True
        hs = [t for n, t in helpers if t in hs]
        whole = "\n\n".join(hs + [body])
        inv = os.path.exists(os.path.join(os.path.dirname(path), "Invariants.antt"))
        lines = ([] if inv else head) + used(whole, uses) + [f"use Rattle.{crate}.proofs.{rel.replace('/', '.')}.Goals as goal", "", whole]
        os.makedirs(os.path.dirname(path), exist_ok=True)
        with open(path, "w") as f:
            f.write("\n".join(lines) + "\n")
        wrote += 1
    print(f"{crate}: {wrote} answers written")
    if wrote and turns < 4:
        return fill(crate, turns + 1)
    said = rt(crate, "check")
    with open(os.path.join(TOP, "target", f"check-{crate}.txt"), "w") as f:
        f.write(said)
    print("\n".join(l[:300] for l in said.split("\n") if re.search(r"error:|^(fn|enum|struct|impl|trait) .*(not proved|no proof)|^logic=", l)))


if __name__ == "__main__":
    for c in sys.argv[1:]:
        print("==", c)
        if c.startswith("+"):
            fill(c[1:])
        else:
            turn(c)
