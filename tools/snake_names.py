#!/usr/bin/env python3
"""Spells the repository's own definitions, fields and lemmas as Rattle does: words in snake case, types in camel case.

usage: tools/snake_names.py [ROOT]

Run once, after port.py. A name counts as own where a specs/ or a lemma file of proofs/ declares it. In a function's proof file the names
that Rattle makes (those of goals, which a `Need-NAME` shows) stay as they are. Source functions, strings and pages are not touched.
It prints where two names would fall together, and then writes nothing.
"""
import collections
import os
import re
import sys

ROOT = os.path.abspath(sys.argv[1] if len(sys.argv) > 1 else ".")
TOKEN = re.compile(r"[A-Za-z_][\w'′₀-₉·-]*")
DECLARED = re.compile(r"(?m)^\s*(?:(?:abbrev|pub|unfoldable|record|data|constructor)\s+)*([A-Za-z_][\w'′₀-₉-]*)\s*(?:\([^)]*\)\s*|\{[^}]*\}\s*)*:(?=\s)")
ALIAS = re.compile(r"\bas ([A-Za-z_][\w'′₀-₉-]*)")
MADE = re.compile(r"\b(?:Need|InvT|MeasureT)-([\w'′₀-₉-]+)")


def files(*endings):
    for folder, dirs, names in os.walk(os.path.join(ROOT, "crates")):
        dirs[:] = sorted(d for d in dirs if d != "out")
        for name in sorted(names):
            if name.endswith(endings):
                yield os.path.join(folder, name)


def bare(text):
    return re.sub(r"--[^\n]*", "", text)


def spelled(name):
    parts = name.replace("′", "'").split("-")
    if name[0].isupper():
        return parts[0] + "".join(p[:1].upper() + p[1:] for p in parts[1:])
    return "_".join(re.sub(r"(?<=[a-z0-9])([A-Z])", lambda m: "_" + m[1].lower(), p) for p in parts)


def lemma_file(path):
    """Not a function's proof file, which stands in a folder of proofs/."""
    return os.path.basename(os.path.dirname(path)) in ("specs", "proofs") or os.path.basename(path) not in ("Proof.antt", "Invariants.antt", "Answers.antt")


texts = {p: open(p, encoding="utf-8").read() for p in files(".rt", ".antt", ".edit")}
own = set()
for p, t in texts.items():
    if p.endswith(".antt") and lemma_file(p):
        own |= set(DECLARED.findall(bare(t)))
    if not p.endswith(".edit"):
        for line in re.findall(r"(?m)^\s*(?:ghost )?use [^;\n]*", t):
            own |= {a for a in ALIAS.findall(line) if spelled(a) != a}
turned = {n: spelled(n) for n in own if spelled(n) != n}
# A lemma (with dashes) that would have its function's name.
taken = {spelled(n) for n in own if "-" not in n}
turned = turned | {n: s + "_lem" for n, s in turned.items() if "-" in n and n[0].islower() and s in taken and n != "is-held"}  # a field
turned = turned | {"made_all": "made_all_lem", "left_is": "left_is_lem"}  # lemmas that port.py had spelled already

# What a file keeps: names that Rattle makes, and those that it imports from a library.
kept = {p: set(MADE.findall(t)) for p, t in texts.items()}
for p, t in texts.items():
    for module, items in re.findall(r"use ((?:\w+\.)+)\{([^}]*)\}", t):
        if not module.startswith("Rattle.") or module.startswith("Rattle.std."):
            kept[p] |= {item.split(" as ")[0].strip() for item in items.split(",")}


def turn(path, text):
    def word(m):
        w = m[0]
        return w if w in kept[path] else turned.get(w, w)
    return TOKEN.sub(word, text)


new = {p: turn(p, t) for p, t in texts.items()}

# Names that fall together: two that one file declares, imports, or one of each.
clashes = []
for p in texts:
    if p.endswith(".edit"):
        continue
    def names(t):
        got = collections.Counter()
        t = bare(t) if p.endswith(".antt") else t
        start = r"(?:^|\n)\s*" + ("ghost " if p.endswith(".rt") else "") + r"use [^{};\n]*\{([^}]*)\}"
        for m in re.finditer(start, t):
            for item in m[1].split(","):
                got[item.split(" as ")[-1].strip()] += 1
        if p.endswith(".antt"):
            for n in set(DECLARED.findall(t)):
                got[n] += 1
        return got
    before, after = names(texts[p]), names(new[p])
    for n, k in after.items():
        if k > 1 and before.get(n, 0) <= 1 and k > max([before.get(o, 0) for o in before if turned.get(o, o) == n] or [0]):
            clashes.append((p, n, [o for o in before if turned.get(o, o) == n]))
for p, n, olds in clashes:
    print(f"together: {os.path.relpath(p, ROOT)}: {n} from {', '.join(olds)}")
if clashes:
    sys.exit(1)
count = 0
for p, t in new.items():
    if t != texts[p]:
        count += 1
        with open(p, "w", encoding="utf-8") as f:
            f.write(t)
print(f"{len(turned)} names in {count} files")
