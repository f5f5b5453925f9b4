#!/usr/bin/env python3
"""Brings the repository's own definitions and lemmas to snake case, as today's Rattle spells them.

usage: python3 tools/respell.py [TOP]     once, right after the kit's port.py; TOP is the top of the repository, by default the folder above this one

A definition in camel case and a definition, lemma, field or case with a dash turn: nodeCount to node_count, dist-symmetric to dist_symmetric. Types, records,
modules, functions of src/ and what is imported from other libraries keep their names. It turns whole words alone, in .antt and .edit files, in the clauses,
ghost lines and comments of .rt files, in code spans of README.md and docs/, and in comments of rust/. Names that fall together are printed, and nothing is written.
"""
import collections
import os
import re
import sys

TOP = os.path.abspath(sys.argv[1] if len(sys.argv) > 1 else os.path.join(os.path.dirname(os.path.abspath(__file__)), ".."))
WORD = re.compile(r"[^\s(){}.;,@\"«»\[\]|]+")
DEFINED = re.compile(r"^\s*(?:abbrev |unfoldable )?(?:pub )?(?:abbrev |unfoldable )?(?:ruleset )?([^\s(){}:.,;]+) (?:=|(?:.*?):)(?: |$)")
FIELD = re.compile(r"^\s*(?:pub )?([^\s(){}:.,;]+) :(?: |$)")
KEYWORDS = {"use", "let", "|", "--", "elim", "rw", "in", "record", "module", "data", "mod", "pub", "where", "simp", "λ", "do", "unfolding"}
# lemmas that port.py has turned already, and whose names are now those of definitions; never behind a dot, where functions have the name
LEMMAS = {"falls_at": "falls_at_lem", "has_all": "has_all_lem", "in_order": "in_order_lem", "same_row": "same_row_lem"}


def files(*suffixes, below="crates"):
    for folder, dirs, names in os.walk(os.path.join(TOP, below)):
        dirs[:] = sorted(d for d in dirs if d not in ("out", "target", ".git"))
        for name in sorted(names):
            if name.endswith(suffixes):
                yield os.path.join(folder, name)


def read(path):
    with open(path, encoding="utf-8") as f:
        return f.read()


def code(text):
    return re.sub(r"(?m)(^|\s)--.*$", r"\1", text)


def snake(name):
    if name in LEMMAS:
        return LEMMAS[name]
    name = re.sub(r"(?<=[a-z0-9])([A-Z])(?=[a-z])", lambda m: "_" + m[1].lower(), name)
    name = re.sub(r"(?<=[a-z0-9])([A-Z])$", lambda m: "_" + m[1].lower(), name)
    return name.replace("-", "_")


def own():
    """The names that specs/ and the modules of proofs/ define, and the names that any file imports from elsewhere."""
    crates = {d for d in os.listdir(os.path.join(TOP, "crates"))}
    names, foreign = set(), set()
    for path in files(".antt", ".rt"):
        text = read(path)
        for m in re.finditer(r"\buse ([^\s{;]+)\{([^}]*)\}", text):
            of = m[1].split(".")
            if not (of[0] == "Rattle" and of[1] in crates):
                foreign |= {w.strip().split(" as ")[0] for w in m[2].split(",")}
        if path.endswith(".rt") or path.endswith("/Proof.antt"):
            continue
        for line in code(text).split("\n"):
            m = DEFINED.match(line) or FIELD.match(line)
            if m and m[1] not in KEYWORDS and re.match(r"[a-z0-9]", m[1]):
                names.add(m[1])
    return names, foreign


def table(names, foreign):
    """New spellings. Where two of the repository's names fall together, a lemma's gets _lem behind it: a definition in camel case keeps the plain name."""
    turned = {n: snake(n) for n in names if n not in foreign and snake(n) != n}
    taken = {n for n in names if n not in turned} | foreign
    for old, new in sorted(turned.items(), key=lambda row: ("-" in row[0], row)):
        if new in taken:
            if "-" in old and new + "_lem" not in taken:
                print(f"{old}: {new}_lem, since {new} is there")
                new += "_lem"
            else:
                print(f"fall together: {old} as {new}")
                yield None, None
        taken.add(new)
        yield old, new


def turn(text, to, may=lambda word: True):
    def word(m):
        if m[0] in LEMMAS and m.start() and text[m.start() - 1] == ".":
            return m[0]
        return to[m[0]] if m[0] in to and may(m[0]) else bare(m[0], to, may)

    return WORD.sub(word, text)


def bare(word, to, may):
    """A word with signs of prose about it."""
    m = re.fullmatch(r"([`':*]*)(.*?)([`':*?!]*)", word)
    return m[1] + to[m[2]] + m[3] if m and m[2] in to and may(m[2]) else word


THERE = set()


def spans(text, to):
    """Code spans: also the names that port.py has turned in the code."""

    def span(m):
        turned = turn(m[0], to)
        return WORD.sub(lambda w: there(w[0]), turned)

    return re.sub(r"`[^`\n]+`", span, text)


def there(word):
    m = re.fullmatch(r"(`?)(.*?)(`?)", word)
    new = snake(m[2]) if re.fullmatch(r"[a-z0-9][\w'-]*", m[2]) and re.search(r"[A-Z-]", m[2]) else m[2]
    return m[1] + new + m[3] if new in THERE else word


def prose(text, to):
    """Code spans turn, and words in camel case outside them too."""
    return turn(spans(text, to), to, lambda w: "-" not in w and w not in LEMMAS)


def antt(text, to):
    def line(s):
        m = re.search(r"(^|\s)--", s)
        return turn(s[: m.start()], to) + prose(s[m.start() :], to) if m else turn(s, to)

    return "\n".join(line(s) for s in text.split("\n"))


def rt(text, to):
    def line(s):
        m = re.match(r"\s*//", s)
        if m:
            return prose(s, to)
        ghost = re.match(r"\s*(ghost|requires|ensures)\b", s)
        return turn(s, to) if ghost else turn(s, to, lambda w: re.search("[A-Z]", w) and "-" not in w)

    return "\n".join(line(s) for s in text.split("\n"))


def rs(text, to):
    return "\n".join(prose(s, to) if re.match(r"\s*//", s) else s for s in text.split("\n"))


def write(path, text, old):
    if text != old:
        with open(path, "w", encoding="utf-8") as f:
            f.write(text)
        return 1
    return 0


def main():
    names, foreign = own()
    rows = list(table(names, foreign))
    if any(old is None for old, _ in rows):
        raise SystemExit(1)
    to = dict(rows)
    THERE.update(n for n in names if n not in to)
    THERE.update(to.values())
    n = 0
    for path in files(".antt", ".edit"):
        old = read(path)
        n += write(path, antt(old, to) if path.endswith(".antt") else turn(old, to), old)
    for path in files(".rt"):
        old = read(path)
        n += write(path, rt(old, to), old)
    documents = [os.path.join(TOP, "README.md")] + list(files(".md", below="docs"))
    for path in documents:
        old = read(path)
        n += write(path, prose(old, to), old)
    for path in files(".rs", below="rust"):
        old = read(path)
        n += write(path, rs(old, to), old)
    print(f"{len(to)} names, {n} files")


main()
