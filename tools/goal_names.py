#!/usr/bin/env python3
"""Gives the names that Rattle makes (goals and what they cite) today's spelling in the proof files of functions: a name from
the source keeps its underscores (returns-then-not-row-fits: returns-then-not-row_fits), and Rattle's own words are in snake
case (overflow-add-x: overflow_add-x). Run at the top of the repository, for some crates or all: python3 tools/goal_names.py [NAME..]
"""
import glob
import os
import re
import sys

WORDS = [
    ("overflow-add", "overflow_add"), ("overflow-sub", "overflow_sub"), ("overflow-mul", "overflow_mul"),
    ("overflow-cast", "overflow_cast"), ("overflow-neg", "overflow_neg"), ("overflow-shl", "overflow_shl"),
    ("overflow-shr", "overflow_shr"), ("overflow-step", "overflow_step"), ("nonzero-div", "nonzero_div"),
    ("nonzero-rem", "nonzero_rem"), ("slice-bounds", "slice_bounds"), ("offset-bounds", "offset_bounds"),
    ("invariant-of", "invariant_of"), ("in-ok", "in_ok"), ("in-err", "in_err"), ("in-default", "in_default"), ("from-residual", "from_residual"),
]
NAME = re.compile(r"(?<![A-Za-z0-9_'\-])([A-Za-z_][A-Za-z0-9_']*(?:-[A-Za-z0-9_']+)+)(?![A-Za-z0-9_'\-])")


def brought(text):
    names = set()
    for m in re.finditer(r"use\s+([^\s{;]+)\.\{([^}]*)\}", text):
        if not m.group(1).endswith(".Goals") and not m.group(1).endswith(".Given"):
            for item in m.group(2).split(","):
                names.add(item.strip().split(" as ")[-1].strip())
    return names


def turn(name, idents):
    for old, new in WORDS:
        name = re.sub(rf"(^|-){old}(?=-|$)", rf"\1{new}", name)
    for ident in idents:
        old = ident.replace("_", "-")
        name = re.sub(rf"(^|-){old}(?=-|$)", rf"\1{ident}", name)
    return name


def main():
    crates = sys.argv[1:] or sorted(os.path.basename(p) for p in glob.glob("crates/*"))
    for crate in crates:
        idents = set()
        for path in glob.glob(f"crates/{crate}/src/**/*.rt", recursive=True):
            text = re.sub(r"//[^\n]*", "", open(path, encoding="utf-8").read())
            text = re.sub(r"ghost use [^;]*;|#\[cycle[^\n]*", "", text)
            idents |= {w for w in re.findall(r"[A-Za-z][A-Za-z0-9_]*", text) if "_" in w.strip("_")}
        idents = sorted(idents, key=lambda w: (-w.count("_"), -len(w), w))
        for path in glob.glob(f"crates/{crate}/proofs/*/**/*.antt", recursive=True) + glob.glob(f"crates/{crate}/proofs/+*/*.antt"):
            text = open(path, encoding="utf-8").read()
            keep = brought(text)
            new = NAME.sub(lambda m: m.group(1) if m.group(1) in keep else turn(m.group(1), idents), text)
            if new != text:
                open(path, "w", encoding="utf-8").write(new)


if __name__ == "__main__":
    main()
