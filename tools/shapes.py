#!/usr/bin/env python3
"""Counts what repeats in the functions of crates/*/src: see docs/DESIGN-PASS.md.

usage: tools/shapes.py [--twins | --facts | --pairs]      at the top of the repository

--twins prints the functions whose parameters and result have the same types, group by group, without what is exported to C.
--facts prints the facts that stand in the contracts of three functions or more.
--pairs prints the pairs of parameter names that nine functions or more share.
"""

import collections
import glob
import re
import sys

HEAD = re.compile(r"^ *(?:pub(?:\(\w+\))? )?fn (\w+)(?:<[^>]*>)?\(([^)]*)\)(?:\s*->\s*([^\n{]+))?([^{]*(?:\{[^\n]*\}\n[^{]*)*)", re.M)
FACT = re.compile(
    r"\((length [a-z]+\.(?:now|old) ≡ [a-z_]+(?: [a-z]+)?|[a-z]+ ≤ (?:max_[a-z]+|slots|65535)|[a-z]+ < (?:[a-z_]+|256|65536)"
    r"|(?:notes|walk)_size slots ≤ length [a-z]+\.(?:now|old))\)"
)


def functions():
    for path in sorted(glob.glob("crates/*/src/**/*.rt", recursive=True)):
        crate = path.split("/")[1]
        if crate == "kindlesap_c":
            continue
        text = open(path).read()
        for found in HEAD.finditer(text):
            name, parameters, result, clauses = found.groups()
            parts = [p.strip() for p in parameters.replace("\n", " ").split(",") if p.strip()]
            yield f"{crate}::{name}", parts, (result or "").strip(), clauses


def twins():
    groups = collections.defaultdict(list)
    for name, parts, result, _ in functions():
        groups[(tuple(re.sub(r"^\w+: ", "", p) for p in parts), result)].append(name)
    shared = [(kind, names) for kind, names in groups.items() if len(names) > 1]
    for (parts, result), names in shared:
        print(f"({', '.join(parts)}) -> {result or '()'}: {', '.join(names)}")
    print(len(shared), "groups")


def facts():
    count = collections.Counter()
    for _, _, _, clauses in functions():
        count.update(set(fact.replace(".old", ".now") for fact in FACT.findall(clauses)))
    often = [(n, fact) for fact, n in count.most_common() if n >= 3]
    for n, fact in often:
        print(n, fact)
    print(len(often), "facts")


def pairs():
    count = collections.Counter()
    for _, parts, _, _ in functions():
        names = [p.split(":")[0].strip() for p in parts]
        count.update((a, b) for i, a in enumerate(names) for b in names[i + 1 :])
    often = [(n, pair) for pair, n in count.most_common() if n >= 9]
    for n, (a, b) in often:
        print(n, a, b)
    print(len(often), "pairs")


for mode, show in (("--twins", twins), ("--facts", facts), ("--pairs", pairs)):
    if len(sys.argv) == 1 or mode in sys.argv[1:]:
        show()
