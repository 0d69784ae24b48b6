#!/usr/bin/env python3
"""Brings the repository's own definitions and lemmas to the spelling of today's Rattle: words in snake case, types in camel case.

usage: python3 tools/respell.py [--check]      once, at the top of the repository, right after the kit's port.py

    usedOf, isKind, inOrder        ->  used_of, is_kind, in_order
    finding-short, every-both      ->  finding_short, every_both       (a plain word is added with `_`)
    length-placed, true-T          ->  as they are                     (a dash joins two names)

It goes by spelling: a name that the repository declares in specs/ or proofs/ turns wherever it stands as a whole word in an .antt file, a clause or a
`ghost use` of an .rt file, or a must-fail edit. Names from src/, of the library and of generated goals stay. A lemma that would fall together
with a definition in some file gets `_lem`, and is shown as 'lemma:'.
"""
import collections
import os
import re
import sys

CHECK = "--check" in sys.argv[1:]
TOKEN = re.compile(r"[^\s(){}.;,@\"«»\[\]`]+")
DECLARED = re.compile(r"^\s*(?:(?:abbrev|unfoldable|pub)\s+)*([^\s:(){}.;,]+)\s*:\s", re.M)
LIBRARY = re.compile(r"^\s*(?:pub |ghost )*use (?!Rattle\.(?!std\b)\w+\.)([^\s{;]+?)\.\{([^}]*)\}", re.M)
OWN = re.compile(r"^\s*(?:pub |ghost )*use (Rattle\.(?!std\b)\w+\.[^\s{;]+?)\.\{([^}]*)\}", re.M)
GENERATED = re.compile(r"^(?:abbrev pub )?([^\s:(){}.;,]+)\s*:\s*(?:pub )?(?:tie|statement|need|needs|goal)\b", re.M)
CLAUSES = re.compile(r"(?:requires|ensures)\s*\*?\s*(?:\w+\s*)?\{[^{}]*(?:\{[^{}]*\}[^{}]*)*\}|ghost use [^;]*;", re.S)
COMMENT = re.compile(r"--[^\n]*")
# Words that stand on their own in a lemma's name, beside the definitions of specs/: what the library calls so.
WORDS = set(
    "true false T not cond zero suc refl sym ap map length take drop set get_or append_nil replicate min max pow abs sub_ℕ nil cons sets slice".split()
)


def files():
    for top, dirs, names in os.walk("crates"):
        dirs[:] = sorted(d for d in dirs if d != "out")
        for n in sorted(names):
            if n.endswith((".antt", ".rt", ".edit")):
                yield os.path.join(top, n)


def read(path):
    with open(path, encoding="utf-8") as f:
        return f.read()


def snake(name):
    return re.sub(r"([a-z0-9])([A-Z])", lambda m: m[1] + "_" + m[2].lower(), name)


def camel(name):
    return bool(re.search(r"[a-z0-9][A-Z]", name)) and not name[0].isupper()


def t_dot(text, m):
    """Whether a word is a part of a path or a field: it stands behind a dot, or before one."""
    return text[max(0, m.start() - 1) : m.start()] == "." or text[m.end() : m.end() + 1] == "."


def main():
    texts = {p: read(p) for p in files()}
    declared, library, generated, words = set(), set(), set(), set(WORDS)
    for p, t in texts.items():
        if not p.endswith(".antt"):
            continue
        names = set(DECLARED.findall(COMMENT.sub("", t)))
        if p.endswith("Proof.antt"):
            made = set(GENERATED.findall(t)) | {n for n in names if n.startswith(("invariant-", "decreases-")) or n.endswith("-spec")}
            generated |= made
            names -= made
        declared |= names
        if "/specs/" in p:
            words |= names
        for _, group in LIBRARY.findall(t):
            library |= {n.strip().split(" as ")[0] for n in group.split(",")}
    words = {snake(w) for w in words if "-" not in w}
    declared = {n for n in declared if n not in library and not n[0].isupper()}
    declared |= {w for p, t in texts.items() if p.endswith(".antt") for w in TOKEN.findall(t) if camel(w) and w not in library}

    def spelt(name):
        parts = [snake(x) if camel(x) else x for x in name.split("-")]
        out = parts[0]
        last = parts[0]
        for part in parts[1:]:
            joins = len(parts) == 2 and last in words and part in words
            out += ("-" if joins else "_") + part
            last = part
        return out

    table = {n: spelt(n) for n in declared if ("-" in n or camel(n)) and re.match(r"^[\w'→-]+$", n)}
    table = {o: n for o, n in table.items() if o != n}
    # A name of a generated goal turns nowhere, since a proof file declares it.
    for o in list(table):
        if o in generated or o.startswith(("shared-slice", "slice-", "enum-known", "array-read", "element-copy", "element-write", "invariant-", "decreases-")):
            del table[o]
    # A lemma that would have its function's name gets `_lem`; a word beside a dot is a path or a field, and falls together with nothing.
    lemmas = collections.defaultdict(dict)
    while True:
        again = False
        for p, t in texts.items():
            if not p.endswith(".antt"):
                continue
            made = collections.defaultdict(set)
            for m in TOKEN.finditer(COMMENT.sub("", t)):
                if t_dot(COMMENT.sub("", t), m):
                    continue
                made[lemmas[p].get(m[0], table.get(m[0], m[0]))].add(m[0])
            for new, olds in made.items():
                if len(olds) < 2:
                    continue
                again = True
                dashed = sorted(o for o in olds if "-" in o)
                plain = sorted(o for o in olds if o == new)
                if dashed and dashed[0] in table:
                    print(f"lemma: {dashed[0]} -> {new}_lem (beside {', '.join(sorted(olds))} in {p})")
                    table[dashed[0]] = new + "_lem"
                elif plain:
                    print(f"lemma: {plain[0]} -> {new}_lem (beside {', '.join(sorted(olds))} in {p})")
                    for q, u in texts.items():
                        if q.endswith(".antt") and (
                            plain[0] in DECLARED.findall(COMMENT.sub("", u))
                            or any(plain[0] in [n.strip() for n in g.split(",")] for _, g in OWN.findall(u))
                        ):
                            lemmas[q][plain[0]] = new + "_lem"
                else:
                    raise SystemExit(f"fall together in {p}: {sorted(olds)}")
        if not again:
            break

    def turned(path, text, goals):
        def word(m):
            w = m[0]
            before = text[m.start() - 1] if m.start() else " "
            if before == "." and goals and "-" in w:
                return w
            if w in lemmas[path] and not t_dot(text, m):
                return lemmas[path][w]
            return table.get(w, w)

        return TOKEN.sub(word, text)

    changed = 0
    for p, t in texts.items():
        if p.endswith(".rt"):
            new = CLAUSES.sub(lambda m: turned(p, m[0], False), t)
        elif p.endswith(".edit"):
            new = turned(p, t, False) if re.search(r"^file: *\S+\.antt", t, re.M) else t
        else:
            new = turned(p, t, p.endswith("Proof.antt"))
        if new != t:
            changed += 1
            if not CHECK:
                with open(p, "w", encoding="utf-8") as f:
                    f.write(new)
    print(f"{len(table)} names respelt, in {changed} files")
    if CHECK:
        for o, n in sorted(table.items()):
            print(o, "->", n)


main()
