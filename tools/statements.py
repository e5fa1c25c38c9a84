#!/usr/bin/env python3
"""Lays the statements of two folders of this repository side by side: what each `pub` declaration of crates/*/specs/*.antt and
crates/*/proofs/*.antt says, with the parameters of the modules around it and without its proof.

usage: python3 tools/statements.py OLD NEW      names each that is gone, new or says something else; the exit status is 1 where one is gone
                                                or changed
"""
import glob
import os
import re
import sys

PUB = re.compile(r"(?:abbrev |unfoldable )?pub (?:data |record |ruleset )?([^\s:(){}]+)")
OPENS = re.compile(r"(?:module|(?:abbrev )?pub record|(?:abbrev )?pub data) ")


def indent(line):
    return len(line) - len(line.lstrip())


def head_of(lines, i):
    """The lines of the declaration that begins at line i: those behind it that are indented more, up to its proof or its parts."""
    out = [lines[i].strip()]
    while not out[-1].endswith(" where") and i + 1 < len(lines) and lines[i + 1].strip() and indent(lines[i + 1]) > indent(lines[i]):
        i += 1
        out.append(lines[i].strip())
    return re.sub(r"\s+", " ", " ".join(out)), i


def statements(path):
    with open(path, encoding="utf-8") as f:
        lines = [re.sub(r"(?<!\S)--.*", "", line.rstrip("\n")) for line in f]
    around, found, i = [], {}, 0
    while i < len(lines):
        line = lines[i].strip()
        if not line or line.startswith("pub mod "):
            i += 1
            continue
        around = [a for a in around if a[0] < indent(lines[i])]
        opens, named, at = OPENS.match(line), PUB.match(line), i
        if opens or named:
            head, i = head_of(lines, i)
            if named:
                found.setdefault(named[1], []).append(" | ".join([a[1] for a in around] + [head]))
            if opens and head.endswith(" where"):
                around.append((indent(lines[at]), head))
        i += 1
    return found


def folder(top):
    out = {}
    for path in sorted(glob.glob(os.path.join(top, "crates/*/specs/*.antt")) + glob.glob(os.path.join(top, "crates/*/proofs/*.antt"))):
        where = os.path.relpath(path, os.path.join(top, "crates"))
        for name, said in statements(path).items():
            out[where, name] = said
    return out


def main(old, new):
    old, new = folder(old), folder(new)
    gone = [k for k in old if k not in new]
    changed = [k for k in old if k in new and old[k] != new[k]]
    for k in gone:
        print(f"gone: {k[0]} {k[1]}\n    - {old[k]}")
    for k in changed:
        print(f"changed: {k[0]} {k[1]}")
        for a, b in zip(old[k], new[k]):
            if a != b:
                print(f"    - {a}\n    + {b}")
    for k in new:
        if k not in old:
            print(f"new: {k[0]} {k[1]}")
    print(f"{len(old)} statements, {len(old) - len(gone) - len(changed)} the same, {len(changed)} changed, {len(gone)} gone")
    return 1 if gone or changed else 0


if len(sys.argv) != 3:
    print(__doc__)
    raise SystemExit(2)
raise SystemExit(main(*sys.argv[1:]))
