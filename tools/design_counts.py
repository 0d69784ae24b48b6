#!/usr/bin/env python3
"""Counts in src/ the places that docs/DESIGN-PASS.md speaks of, point by point.

usage: python3 tools/design_counts.py [--list]      at the top of the repository; --list shows each place
"""
import collections
import glob
import re
import sys

LIST = "--list" in sys.argv[1:]
FILES = {f: open(f).read() for f in sorted(glob.glob("crates/*/src/*.rt"))}


def lines(pattern, keep=lambda line: True):
    p = re.compile(pattern)
    return [f"{f[7:]}:{n}: {line.strip()}" for f, s in FILES.items() for n, line in enumerate(s.split("\n"), 1) if p.search(line) and keep(line)]


def code(line):
    return not line.lstrip().startswith(("//", "ghost", "requires", "ensures"))


# each function with a body: its name, its signature without clauses, its body; the body's brace ends the signature's line, or stands on one of its own behind clauses
def functions():
    for f, s in FILES.items():
        s = re.sub(r"//[^\n]*", "", s)
        for m in re.finditer(r'^( *)(?:pub )?(?:extern "C" )?fn (\w+)((?:(?!;\n|\{\}\n).)*?)(?: |\n\1)\{\n(.*?)\n\1\}', s, re.M | re.S):
            yield f, m.group(2), re.split(r"\n\s*(?:requires|ensures)", m.group(3))[0], m.group(4)


# functions that differ only in names, types and numbers
def twins():
    groups = collections.defaultdict(list)
    for f, name, sig, body in functions():
        t = re.sub(r"b'.'|\b\d\w*\b", "0", re.sub(r'"[^"]*"', "s", sig + "|" + body))
        t = re.sub(r"\b(?!(?:if|while|return|match|let|mut|for|in|loop|else|fn|pub|true|false)\b)[A-Za-z_]\w*\b", "x", t)
        t = re.sub(r"\s+", " ", re.sub(r"x(::x)+", "x", t))
        if len(body) > 25:
            groups[t].append(f"{f[7:]}: {name}")
    return [", ".join(g) for g in groups.values() if len(g) > 1]


# clauses that stand in three or more contracts
def clauses():
    c = collections.Counter(m for s in FILES.values() for m in re.findall(r"(?:requires|ensures)(?: \w+)? (\{.*\})", s))
    return [f"{n} times {t}" for t, n in sorted(c.items(), key=lambda i: -i[1]) if n >= 3]


TOGETHER = [
    r"solid: Solid,\s+corners: &\[u16\]",
    r"line: &mut \[u8\],\s+at: usize",
    r"heads: &[^,]*,\s+links: &",
    r"keys: &mut \[u64; 6\]",
    r"rooms: Rooms,\s+state: ReaderState",
    r"t: &\[u8\],\s+i: usize",
    r"cuts: &\[u8; 1536\]",
]


def together():
    found = []
    for p in TOGETHER:
        for f, s in FILES.items():
            found += [f"{f[7:]}: {' '.join(m.split())}" for m in re.findall(p, s)]
    return found


COUNTS = [
    ("1a enums with the variants of an Option or a Result", lines(r"^(pub )?enum (\w*Answer|Finding|Ruling|Spelt|Coordinate|Judged|Line|Step|Input|Turn|Response)\b")),
    ("1b comments that say of a number that it means none", lines(r"//.*(, or 0\b|0 where|, or none|place 0 where|0 behind|0 is none|none where|or u where|or t's length)")),
    ("1c numbers for kinds or states: comparisons with a literal", lines(r"(\bkind|\bseen\[i\]) (=|==|<) \d|\d < seen\[i\]", code)),
    ("1d structs written out for a refusal without a second number", lines(r"second: 0,")),
    ("2 groups of functions that differ only in names, types and numbers", twins()),
    ("3 loops with `while` or `loop`", lines(r"^\s*(while|loop)\b")),
    ("4a casts with `as`", lines(r"\bas (u8|u16|u32|u64|usize|i32|i64)\b", code)),
    ("4b comparisons of the numbers inside two vertices or places", lines(r"\.0 (==|!=|<=|<) \w+(\.0|\[)", code)),
    ("4c a refusal printed by hand", lines(r'!\(rt; ".*NO \{')),
    ("4d types that derive no more than copying", lines(r"^#\[derive\(Clone, Copy\)\]")),
    ("5a clauses that stand in three or more contracts", clauses()),
    ("5b parameters that travel together", together()),
    ("6 buffers made in a function", lines(r"= \[(0|b'.')\w*; ", code)),
    ("7 closures, function pointers, dyn", lines(r"\bfn\(|\bdyn |impl Fn|F: Fn|\|\w+(, \w+)*\| ", code)),
    ("8 proof files with answers", sorted(glob.glob("crates/*/proofs/**/Answers.antt", recursive=True))),
    ("8 lines of proof", [line for f in glob.glob("crates/*/proofs/**/*.antt", recursive=True) for line in open(f)]),
]

for name, found in COUNTS:
    print(f"{len(found):6}  {name}")
    if LIST and not name.startswith("8"):
        for place in found:
            print(f"          {place}")
