#!/usr/bin/env python3
"""Spells the repository's own names in snake case: definitions, lemmas, fields and constructors of specs/ and proofs/, in crates/, README.md and docs/.

usage: tools/respell.py [--check]      at the top of the repository, after the kit's port.py

A name that is declared in a file of specs/ and has a dash or a capital inside, as 'byte-zeros' or 'symbolSpace', is spelled 'byte_zeros' or 'symbol_space'.
What the libraries declare, what Rattle makes for proofs ('tie.', 'goal.', a step below 'c.'), Rust code and exported C names stay.
Where a lemma would meet a definition of its name, the lemma gets '_lem' (BY_HAND). In comments and pages a dashed name turns only inside backticks.
--check prints what falls together and writes nothing. A second run changes nothing.
"""

import collections
import glob
import re
import sys

WORD = r"[^\s(){}.;,@\"«»`]+"
USE = re.compile(r"\buse ([A-Za-z][\w.]*)\.\{([^}]*)\}", re.S)
# Pairs that would meet: a lemma named as its function, and four that have another reason.
BY_HAND = {
    "accepted-text": "accepted_text_lem",
    "reference-image": "reference_image_lem",
    "symbol-in": "symbol_in_lem",
    "production-in": "production_in_lem",
    "slot_row": "slot_row_lem",
    "slotRow": "slot_row",
    "nodes-from": "nodes_from_lem",
    "slot-at": "slot_at_lem",
    "tree-size": "tree_size_lem",
    "leaves-from": "leaves_from_lem",
    "nodes-in": "nodes_in_lem",
    "no-break": "no_break_lem",
    "head-mark": "head_mark_lem",
    "reference-tables": "reference_tables_lem",
    "equal-token": "equal_token_lem",
    "prediction-byte": "prediction_byte_lem",
    "break-byte": "break_byte_lem",
    "broken-at": "broken_at_lem",
    "bit-or": "bit_or_lem",
    "givenUp": "given_up_between",
    "starts-in": "starts_in_lem",
    "noRoom": "out_of_room",
}


def crates():
    with open("crates.txt") as f:
        return {l.split(":")[0].split()[0] for l in f if ":" in l}


def files(*patterns):
    for p in patterns:
        yield from sorted(glob.glob(p, recursive=True))


def read(path):
    with open(path, encoding="utf-8") as f:
        return f.read()


def snake(w):
    if w in BY_HAND:
        return BY_HAND[w]
    w = re.sub(r"(?<=[a-z0-9])([A-Z])", lambda m: "_" + m[1].lower(), w)
    return w.replace("-", "_")


def table():
    own, foreign, seen = crates(), set(), collections.Counter()
    for f in files("crates/*/specs/**/*.antt", "crates/*/proofs/**/*.antt", "crates/*/src/**/*.rt"):
        for path, names in USE.findall(read(f)):
            if not (path.startswith("Rattle.") and path.split(".")[1] in own):
                foreign |= {k.strip() for n in names.split(",") for k in n.split(" as ")}
    for f in files("crates/*/specs/**/*.antt"):
        seen.update(re.findall(WORD, re.sub(r"--[^\n]*", "", read(f))))
    turned = {}
    for w in seen:
        dashed = re.search(r"[\w'₀-₉]-[\w'₀-₉]", w)
        humped = re.match(r"[a-z][a-z0-9_'-]+[A-Z]", w)
        if w not in foreign and w[0].islower() and (dashed or humped):
            turned[w] = snake(w)
    if "slotRow" in turned:
        turned["slot_row"] = BY_HAND["slot_row"]
    meet = collections.defaultdict(set)
    for w in seen:
        meet[turned.get(w, w)].add(w)
    return turned, {k: v for k, v in meet.items() if len(v) > 1}


def in_code(text, turned, keep):
    return re.sub(rf"(?<![^\s(){{}}.;,@\"«»`])({WORD})", lambda m: m[0] if keep.search(text, max(0, m.start() - 5), m.start()) else turned.get(m[0], m[0]), text)


def in_prose(text, turned):
    spans = lambda m: re.sub(WORD, lambda w: turned.get(w[0], w[0]), m[0])
    text = re.sub(r"`[^`\n]+`", spans, text)
    humped = {k: v for k, v in turned.items() if "-" not in k and k != "slot_row"}
    return re.sub(r"(?<![\w`.])[a-z]\w*[A-Z]\w*(?![\w`])", lambda m: humped.get(m[0], m[0]), text)


def turn(path, turned):
    text = read(path)
    keep = re.compile(r"(tie|goal)\.$")
    if path.endswith(".md"):
        return text, in_prose(text, turned)
    mark = "//" if path.endswith(".rt") else "--"
    out = []
    for line in text.split("\n"):
        at = line.find(mark)
        if at > 0 and not line[at - 1].isspace():
            at = -1
        code, rest = (line, "") if at < 0 else (line[:at], line[at:])
        if path.endswith(".edit") and re.match(r"#", line):
            code, rest = "", line
        out.append(in_code(code, turned, keep) + in_prose(rest, turned))
    return text, "\n".join(out)


def main():
    turned, meet = table()
    for k, v in sorted(meet.items()):
        print(f"fall together: {k}: {' '.join(sorted(v))}")
    if "--check" in sys.argv:
        return
    n = 0
    for f in files("crates/*/specs/**/*.antt", "crates/*/proofs/**/*.antt", "crates/*/src/**/*.rt", "crates/*/must-fail/*.edit", "README.md", "docs/**/*.md"):
        old, new = turn(f, turned)
        if old != new:
            with open(f, "w", encoding="utf-8") as o:
                o.write(new)
            n += 1
    print(f"{len(turned)} names, {n} files")


main()
