#!/usr/bin/env python3
"""Brings the repository's own definitions and lemmas to one spelling: words in snake case, types and modules in camel case.

usage: python3 tools/respell.py          at the top of the repository, once, behind port.py of the kit

Renamed are names that specs/ and proofs/ define (definitions, lemmas, constructors, fields of records), wherever they stand: in .antt files, in
clauses and ghost items of .rt files, in must-fail edits, and between backticks in README and docs. Kept are functions of src/, exported names, strings,
inputs and outputs. A lemma that would get the name of something else gets _lem behind it. It prints each name that it turned.
"""

import os
import re
import sys

CRATES = "crates"
# a name of antt: no blank, bracket, comma, semicolon, colon or dot
NAME = re.compile(r"[^\s(){}\[\],;:.\"`«»]+")
CAMEL = re.compile(r"(?<![^-_◌])[a-z][a-z0-9]*[A-Z][A-Za-z0-9]*")


def files(end):
    for folder, dirs, names in sorted(os.walk(CRATES)):
        dirs[:] = sorted(d for d in dirs if d != "out")
        for n in sorted(names):
            if n.endswith(end):
                yield os.path.join(folder, n)


def read(path):
    with open(path, encoding="utf-8") as f:
        return f.read()


def without_remarks(text):
    return re.sub(r"(?m)(^|\s)--(\s.*)?$", r"\1", text)


DEFINED = re.compile(r"(?m)^(?:(?:abbrev|unfoldable|pub|data|record)\s+)*([^\s(){}\[\],;:.\"]+)\s*(?:[({][^\n]*)?:(?!=)")
FIELD = re.compile(r"(?m)^\s+(?:pub\s+)?([^\s(){}\[\],;:.\"]+)\s+:\s")


def snake(name):
    """In snake case: blockOf-group as block_of_group; ◌fails-of◌ as ◌fails_of◌; letters and digits of a value, as the F of 9F, stay."""
    parts = re.split(r"([-_◌])", name)
    out = []
    for p in parts:
        if re.fullmatch(r"[a-z][A-Za-z0-9]*", p):
            p = re.sub(r"(?<=[a-z])([A-Z])(?=[A-Z][a-z])", lambda k: "_" + k.group(1).lower(), p)
            p = re.sub(r"(?<=[a-z0-9])([A-Z])(?=[a-z])", lambda k: "_" + k.group(1).lower(), p)
            p = re.sub(r"(?<=[a-z])([A-Z]+)$", lambda k: "_" + k.group(1).lower(), p)
            p = re.sub(r"(?<=[a-z])([A-Z])(?=_)", lambda k: "_" + k.group(1).lower(), p)
        out.append(p)
    s = "".join(out)
    return re.sub(r"(?<=[A-Za-z0-9'₀-₉])-(?=[A-Za-z0-9])", "_", s)


def without_strings(text):
    return re.sub(r'"(?:[^"\\\n]|\\.)*"', '""', text)


def turned():
    """Old name to new name."""
    defined, lemma, used = set(), set(), set()
    for p in files(".antt"):
        text = without_strings(without_remarks(read(p)))
        # of a path only the end can be a name of this file
        for line in text.splitlines():
            if not line.startswith(("use ", "pub use ")):
                used |= {m.group(0) for m in NAME.finditer(line) if line[m.start() - 1 : m.start()] != "." and line[m.end() : m.end() + 1] != "."}
        if re.search(r"/proofs/[^/]+/", p):
            continue
        for it in (DEFINED, FIELD):
            defined |= {m.group(1) for m in it.finditer(text)}
        if "/proofs/" in p:
            lemma |= {m.group(1) for m in DEFINED.finditer(text)}
    # in a clause a parameter, a field or a constant hides a word of its name; a function does not
    for p in files(".rt"):
        text = without_strings(re.sub(r"//[^\n]*", "", read(p)))
        used |= set(re.findall(r"(?:\b|«)([A-Za-z_][A-Za-z0-9_]*)»?\s*:(?!:)", text)) | set(re.findall(r"\b(?:const|static)\s+([A-Z0-9_]+)", text))
    own = {n for n in defined if CAMEL.search(n) or re.search(r"[A-Za-z0-9'₀-₉]-[A-Za-z0-9]", n)}
    out, taken = {}, set()
    for n in sorted(own, key=lambda n: (n in lemma, n)):
        new = "SetUpTo" if n == "Set-up-to" else snake(n)
        if new != n and (new in used or new in taken):
            free = next(f for f in (new + "_lem", new + "_law") if f not in used and f not in taken)
            print(f"respell: {new} stands already: {n} is {free}")
            new = free
        if new != n:
            taken.add(new)
            out[n] = new
            # the words of an operator, where it is used
            if "◌" in n:
                out.update({a: b for a, b in zip(n.split("◌"), new.split("◌")) if a != b})
    return out


def respelled(text, names, field):
    def one(m):
        n = m.group(0)
        if n not in names:
            return n
        # behind a dot only a field or a path's end: a name of the kit's making keeps its dashes
        if "-" in n and m.start() and text[m.start() - 1] == "." and n not in field:
            return n
        return names[n]

    return NAME.sub(one, text)


def in_clauses(text, names, field):
    """Without its strings."""
    parts = re.split(r'("(?:[^"\\\n]|\\.)*")', text)
    return "".join(p if i % 2 else respelled(p, names, field) for i, p in enumerate(parts))


def main():
    if not os.path.isdir(CRATES):
        raise SystemExit("respell: run it at the top of the repository")
    names = turned()
    field = set()
    for p in files(".antt"):
        if not re.search(r"/proofs/[^/]+/", p):
            field |= {m.group(1) for m in FIELD.finditer(without_remarks(read(p)))}
    n = 0
    for end in (".antt", ".rt", ".edit"):
        for p in files(end):
            old = read(p)
            new = in_clauses(old, names, field)
            if new != old:
                n += 1
                with open(p, "w", encoding="utf-8") as f:
                    f.write(new)
    pages = ["README.md"] + [os.path.join(d, f) for d, _, fs in os.walk("docs") for f in fs if f.endswith(".md") and not f.startswith("PORT")]
    for p in sorted(pages):
        old = read(p)
        new = re.sub(r"`[^`\n]+`", lambda m: "`" + respelled(m.group(0)[1:-1], names, field) + "`", old)
        if new != old:
            n += 1
            with open(p, "w", encoding="utf-8") as f:
                f.write(new)
    for a in sorted(names):
        print(f"{a} {names[a]}")
    print(f"respell: {len(names)} names, {n} files")


if __name__ == "__main__":
    sys.exit(main())
