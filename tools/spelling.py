#!/usr/bin/env python3
"""Brings the repository's own definitions and lemmas to snake case, in contracts, specs/ and proofs/.

Run once, at the top of the repository. Every word of the form `oneTwo` becomes `one_two`; types, facts, modules and the functions of src/
keep their names. It prints each word with its new form, and stops if two words would fall together, or one with a name of the code.
"""
import pathlib
import re
import sys

WORD = re.compile(r"(?<![A-Za-z0-9_'])[a-z][a-z0-9]*(?:[A-Z][a-z0-9]*)+(?![A-Za-z0-9_])")
NAME = re.compile(r"(?<![A-Za-z0-9_'])[a-z][a-z0-9_]*(?![A-Za-z0-9_])")
# Names of the code that a clause could mean in place of a definition: fields, parameters, constants, ghost members, functions.
CODE = re.compile(r"(?:\bfn\s+|\bghost\s+|\bconst\s+|\blet\s+(?:mut\s+)?|[(,{|]\s*(?:pub(?:\(crate\))?\s+|mut\s+)*)([a-z][a-z0-9_]*)\s*[:(=<]")


# A word whose new form would fall together with another of the same file.
APART = {"readyBy": "ready_when"}


def snake(word):
    if word in APART:
        return APART[word]
    return re.sub(r"([A-Z])", lambda m: "_" + m.group(1).lower(), word)


def main():
    top = pathlib.Path(sys.argv[1] if len(sys.argv) > 1 else ".") / "crates"
    files = sorted(p for p in top.rglob("*") if p.suffix in (".rt", ".antt") and "out" not in p.parts)
    texts = {p: p.read_text() for p in files}
    words = sorted({w for t in texts.values() for w in WORD.findall(t)})
    new = {w: snake(w) for w in words}
    faults = []
    if len(set(new.values())) != len(new):
        faults.append("two words fall together")
    names = {n for p, t in texts.items() if p.suffix == ".antt" for n in NAME.findall(t)}
    for w, s in new.items():
        if s in names:
            print(f"look: {w}: {s} is already a name in specs/ or proofs/")
    for p, t in texts.items():
        both = {w for w in WORD.findall(t) if new[w] in NAME.findall(t.replace(".proofs.", "."))}
        if p.suffix == ".antt" and both:
            print(f"look: {p}: has {sorted(both)} in both forms")
        if p.suffix == ".rt":
            used = {new[w] for w in WORD.findall(t)}
            for n in set(CODE.findall(t)) & used:
                print(f"look: {p}: {n} is also a name of the code there")
    for w, s in new.items():
        print(f"{w} -> {s}")
    if faults:
        sys.exit("\n".join(faults))
    for p, t in texts.items():
        respelled = WORD.sub(lambda m: new[m.group(0)], t)
        if respelled != t:
            p.write_text(respelled)


main()
