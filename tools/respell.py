#!/usr/bin/env python3
"""Brings this repository's own names to the spelling of today's Rattle.

usage: python3 tools/respell.py          at the top of the repository, once, right after /opt/rattle/port/port.py

The names that are turned are those that the .antt files of specs/ and proofs/ declare with a dash inside: definitions, lemmas, fields,
constructors, and names bound by a let, a module or a lambda. A type or a fact, whose name has a capital, goes to camel case
(Same-frames: SameFrames), every other name to snake case (has-slot: has_slot). A name that ends in an operator keeps its dash before
it (calls-++), as the library's do. Names that Rattle makes, which follow goal., c., w. or l., and names of Rust are left alone, so are
names that a file imports from the library, and so is what stands in comments outside backquotes. It prints names that fall together with another, and turns nothing then.
"""

import os
import re
import sys

NAME = r"[^\W\d][\w'+*-]*"
TOKEN = re.compile(r"(?<![\w'-])(\.?)([^\W\d][\w']*(?:-(?:[\w']+|\+\+))+)(?![\w'])")
MADE = re.compile(r":\s*(?:goal|need|given)\.")
DECLARED = re.compile(
    r"^\s*(?:(?:abbrev|unfoldable|ruleset|private)\s+)*(?:pub\s+)?(?:(?:record|data|module)\s+)?((?:" + NAME + r"\s+)*" + NAME + r")\s*(?=:|\(|\{)", re.M
)
LOCAL = re.compile(r"(?:\blet\s+|[({])((?:" + NAME + r"\s+)*" + NAME + r")\s*(?=:[^:])|\blet\s+(" + NAME + r")\s*=")
LAMBDA = re.compile(r"λ\s+((?:(?:" + NAME + r"|\([^)]*\))\s*)+)\.")
# A lemma whose new name a Rust function of its crate has.
LEMMAS = "bitmap-laws desk-laws layers-keep-apart moving-laws patch-laws plan-laws planes-laws run-laws slot-laws worked-examples".split()
# Definitions and local names that are spelled as a Rust function is, in another namespace; most are what that function answers.
ALIKE = "can-open check-open in-slot kept-pixel pane-size same-screen".split()
ROOTS = {"c", "w", "l", "goal", "Goals", "Given"}
KEYWORDS = {"pub", "abbrev", "unfoldable", "record", "data", "module", "let", "where", "use", "mod", "elim", "in", "open"}


def files(root):
    for folder, dirs, names in os.walk(os.path.join(root, "crates")):
        dirs[:] = sorted(d for d in dirs if d != "out")
        for n in sorted(names):
            if n.endswith((".antt", ".rt")):
                yield os.path.join(folder, n)


def pages(root):
    """The pages and edits that name definitions in backquotes or in code."""
    yield os.path.join(root, "README.md")
    for top in ("docs", "crates"):
        for folder, dirs, names in os.walk(os.path.join(root, top)):
            dirs[:] = sorted(d for d in dirs if d != "out")
            for n in sorted(names):
                if n.endswith(".md"):
                    yield os.path.join(folder, n)


def bare(text, mark):
    """The text without comments."""
    return "\n".join(code for code, _ in (split(l, mark) for l in text.split("\n")))


def split(line, mark):
    at = line.find(mark)
    while at > 0 and mark == "--" and line[at - 1] not in " \t" or at > 0 and line[:at].count('"') % 2:
        at = line.find(mark, at + 1)
    return (line, "") if at < 0 else (line[:at], line[at:])


def turned(name):
    head, op = (name[:-3], name[-3:]) if name.endswith("-++") else (name, "")
    if head[0].isupper():
        first, *rest = head.split("-")
        return first + "".join(r[0].upper() + r[1:] for r in rest) + op
    return head.replace("-", "_") + op + ("_lem" if name in LEMMAS else "")


def declared(text):
    found = set()
    for m in DECLARED.finditer(text):
        if not MADE.match(text[m.end():]):
            found |= set(m.group(1).split())
    for m in LOCAL.finditer(text):
        found |= set((m.group(1) or m.group(2)).split())
    for m in LAMBDA.finditer(text):
        found |= set(re.findall(NAME, re.sub(r"\([^)]*\)", "", m.group(1))))
    return {n for n in found if "-" in n.replace("-++", "") and n not in KEYWORDS and turned(n) != n}


def library(text, root):
    """The names that a file imports from the library."""
    mine = "|".join(sorted(os.listdir(os.path.join(root, "crates"))))
    found = set()
    for m in re.finditer(r"^(?:ghost )?use (?!Rattle\.(?:" + mine + r")\.)[^{\n]*\{([^}]*)\}", text, re.M):
        found |= {n.split(" as ")[0].strip() for n in m.group(1).split(",")}
    return found


def turn(code, own, names):
    def one(m):
        dot, name = m.groups()
        if name not in own:
            return m.group(0)
        if dot:
            root = re.search(r"([\w'-]+)$", code[: m.start()])
            if root and root.group(1) in ROOTS and not re.search(r"[\w)]\.$", code[: m.start() - len(root.group(1))]):
                return m.group(0)
        names.add(name)
        return dot + turned(name)

    return TOKEN.sub(one, code)


def main():
    root = os.getcwd()
    texts = {}
    for p in files(root):
        with open(p, encoding="utf-8") as f:
            texts[p] = f.read()
    own = set()
    for p, t in texts.items():
        if p.endswith(".antt"):
            own |= declared(bare(t, "--"))
    words = set()
    for p, t in texts.items():
        words |= set(re.findall(r"[^\W\d][\w'+-]*", bare(t, "--" if p.endswith(".antt") else "//")))
    clashes = sorted((n, turned(n)) for n in own if turned(n) in words and n not in ALIKE)
    by = {}
    for n in own:
        by.setdefault(turned(n), []).append(n)
    clashes += sorted((n, t) for t, ns in by.items() if len(ns) > 1 for n in ns)
    for n, t in clashes:
        where = sorted({os.path.relpath(p, root) for p, x in texts.items() if re.search(r"(?<![\w'-])" + re.escape(t) + r"(?![\w'-])", x)})
        print(f"falls together: {n} -> {t}, which stands in {', '.join(where[:4])}")
    if clashes and "--anyway" not in sys.argv:
        return 1
    names = set()
    for p, t in texts.items():
        mark = "--" if p.endswith(".antt") else "//"
        out = []
        here = own - library(t, root)
        for l in t.split("\n"):
            code, said = split(l, mark)
            said = re.sub(r"`[^`]*`", lambda m: turn(m.group(0), here, names), said)
            out.append(turn(code, here, names) + said)
        new = "\n".join(out)
        if new != t:
            with open(p, "w", encoding="utf-8") as f:
                f.write(new)
    for p in pages(root):
        with open(p, encoding="utf-8") as f:
            t = f.read()
        new = re.sub(r"`[^`\n]*`", lambda m: turn(m.group(0), own, names), t)
        if new != t:
            with open(p, "w", encoding="utf-8") as f:
                f.write(new)
    print(f"{len(names)} names turned")
    return 0


if __name__ == "__main__":
    sys.exit(main())
