#!/usr/bin/env python3
"""Brings the names of definitions and lemmas to one spelling: words in snake case, types and modules in camel case, a dash only between
two names. It turns whole words in specs/ and proofs/, in the clauses of src/, in the must-fail edits of specs/, in tests/mutants.txt and in
the code spans of the pages. Functions of src/, strings and outputs stay.

usage: python3 tools/spelling.py [--list]      at the top; --list writes the rows OLD NEW and changes nothing
"""
import glob
import re
import sys

WORD = re.compile(r'[^\s(){}.;,@"«»]+')
QUIET = re.compile(r'"(?:[^"\\\n]|\\.)*"|(?<![^\s(){}.;,@"«»])--[^\n]*|\{-.*?-\}', re.S)
ALONE = re.compile(r'(?<![^\s(){};,@"])[^\s(){}.;,@"«»]+(?![^\s(){};,@"])')
SPAN = re.compile(r"`[^`\n]+`")
DECLARED = re.compile(r"^\s*(?:(?:abbrev|unfoldable|pub|data|record|irreducible) )*([^\s:(){}.;,λ]+)((?:\s+[({][^\n]*?[)}])*)\s*:\s(.*)$")
FUNCTION = re.compile(r"^\s*(?:abbrev|unfoldable|irreducible) ")
# a goal that the tool chain names keeps the name that it has there
MADE = re.compile(r"^(?:tie|goal)\.")
STEP = re.compile(r"\.(?:ensures|result|new|true|false|is|was|invariant|branch|auto)(?![\w-])")
RESERVED = {"in", "as", "data", "open", "record", "ruleset", "where", "module", "use", "pub", "let", "elim", "ground", "assumption", "at", "with", "if", "else"}
# words of the library that are plain words in the name of a lemma
PLAIN = {"is", "miss"}
# by hand: names that the library spells anew, and lemmas that would have the name of their function
GIVEN = {"getD": "get_or"}
LEMMAS = {"no_room": "no_room_lem", "send_at": "send_at_lem", "too_short": "too_short_lem"}


def texts(*ends):
    out = []
    for top in ("specs", "proofs", "src"):
        for end in ends:
            out += glob.glob(f"crates/*/{top}/**/*{end}", recursive=True)
    return sorted(p for p in out if "/out/" not in p)


def read(path):
    with open(path, encoding="utf-8") as f:
        return f.read()


def snake(word):
    if word in GIVEN:
        return GIVEN[word]
    if not word.lstrip("→")[:1].islower():
        return word
    word = re.sub(r"(?<=[a-z0-9])([A-Z])(?=[a-z])", lambda m: "_" + m[1].lower(), word)
    return re.sub(r"(?<=[a-z0-9])([A-Z])(?![a-z])", lambda m: "_" + m[1].lower(), word)


def declared():
    names, made, defs = {}, set(), set()
    for path in texts(".antt"):
        for line in QUIET.sub("", read(path)).split("\n"):
            m = DECLARED.match(line)
            if not m or m[1] in RESERVED:
                continue
            if MADE.match(m[3]):
                made.add(m[1])
                continue
            names.setdefault(m[1], set()).add(path)
            if "/specs/" in path and "-" not in m[1] and FUNCTION.match(line):
                defs.add(snake(m[1]))
    return names, made, defs


def library_words():
    """What files import from the library: names that a new spelling must not meet."""
    words = set()
    for path in texts(".antt", ".rt"):
        for use in re.finditer(r"use ([\w.'+]+)\.\{([^}]*)\}", read(path)):
            if not use[1].startswith("Rattle.") or use[1].startswith("Rattle.std"):
                words |= {w.strip().split(" as ")[-1] for w in use[2].split(",")}
    return words


def joined(name, names):
    """The name with a dash only between two words that are names themselves."""
    parts = [snake(p) for p in name.split("-")]
    if parts[-1] == "spec":
        return "_".join(parts)
    out = parts[0]
    for left, right in zip(parts, parts[1:]):
        both = (left in names or left[:1].isupper()) and (right in names or right[:1].isupper())
        out += ("-" if both else "_") + right
    return out


def rows():
    names, made, defs = declared()
    library = library_words()
    known = defs | {w for w in library if w[:1].islower() and "-" not in w and w not in PLAIN}
    # words that stand alone somewhere, not in a path: a new spelling must not meet one that stays
    tokens = set()
    for path in texts(".antt"):
        tokens |= set(ALONE.findall(QUIET.sub("", read(path))))
    table = dict(LEMMAS)
    for name in sorted(names):
        if name in table:
            continue
        if name in made:
            continue
        new = joined(name, known)
        if new != name:
            table[name] = new
    new_names = {}
    for old, new in table.items():
        new_names.setdefault(new, []).append(old)
    said = []
    for new, olds in sorted(new_names.items()):
        met = new in library or new in RESERVED or (new in tokens and new not in table)
        if len(olds) > 1 or met:
            for old in olds:
                # they would fall together: a lemma that would have its function's name gets _lem, as in the library
                if "-" not in old and not met:
                    continue
                kept = old if met else new + "_lem"
                said.append((old, new, kept))
                if met:
                    table.pop(old)
                else:
                    table[old] = kept
    return table, said, made


def turned(text, table):
    # a step of the code, as in c.table-size.ensures, is no name of a lemma
    return WORD.sub(lambda m: m[0] if STEP.match(text, m.end()) and text[m.start() - 1:m.start()] == "." else table.get(m[0], m[0]), text)


def in_antt(text, table):
    out, at = [], 0
    for q in QUIET.finditer(text):
        out.append(turned(text[at:q.start()], table))
        out.append(in_comment(q[0], table) if q[0][:2] in ("--", "{-") else q[0])
        at = q.end()
    out.append(turned(text[at:], table))
    return "".join(out)


def in_comment(text, table):
    text = SPAN.sub(lambda s: WORD.sub(lambda m: table.get(m[0].strip("`"), m[0].strip("`")), s[0][1:-1]).join("``"), text)
    return WORD.sub(lambda m: table[m[0]] if re.search("[a-z][A-Z]", m[0]) and m[0] in table else m[0], text)


CLAUSE = re.compile(r"(?:(?:requires|ensures)\s*\*?\s*(?:\w+\s*)?|ghost\s+\w+\s*[:=]\s*)\{|ghost use [^;]*;")


def in_rust(text, table):
    out, at = [], 0
    for m in CLAUSE.finditer(text):
        if m.start() < at:
            continue
        line = text[text.rfind("\n", 0, m.start()) + 1:m.start()]
        if "//" in line:
            continue
        if m[0].endswith(";"):
            end = m.end()
        else:
            depth, end = 1, m.end()
            while depth:
                depth += {"{": 1, "}": -1}.get(text[end], 0)
                end += 1
        out.append(text[at:m.start()])
        out.append(in_antt(text[m.start():end], table))
        at = end
    out.append(text[at:])
    return "".join(out)


def in_edit(text, table):
    out, antt = [], False
    for line in text.split("\n"):
        if line.startswith("file: "):
            antt = line.endswith(".antt")
        elif antt and line.startswith(("old: ", "new: ")):
            line = line[:5] + in_antt(line[5:], table)
        out.append(line)
    return "\n".join(out)


def in_mutants(text, table):
    return "\n".join(line if line.startswith("#") else in_antt(line, table) for line in text.split("\n"))


def in_page(text, table):
    return SPAN.sub(lambda s: WORD.sub(lambda m: table.get(m[0], m[0]), s[0][1:-1]).join("``"), text)


def main():
    table, said, made = rows()
    if "--list" in sys.argv:
        for old, new in sorted(table.items()):
            print(old, new)
        for old, new, kept in said:
            print("together:", old, new, "kept as", kept, file=sys.stderr)
        return
    work = [(p, in_antt) for p in texts(".antt")] + [(p, in_rust) for p in texts(".rt")]
    work += [(p, in_edit) for p in sorted(glob.glob("crates/*/must-fail/*.edit"))]
    work += [(p, in_mutants) for p in glob.glob("tests/mutants.txt")]
    work += [(p, in_page) for p in sorted(glob.glob("*.md") + glob.glob("docs/*.md") + glob.glob("examples/**/*.md", recursive=True))]
    for path, turn in work:
        old = read(path)
        new = turn(old, table)
        if new != old:
            with open(path, "w", encoding="utf-8") as f:
                f.write(new)


main()
