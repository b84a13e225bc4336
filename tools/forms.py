#!/usr/bin/env python3
"""Count the places in crates/*/src that are written in older forms, point by point (docs/DESIGN-PASS.md).

    python3 tools/forms.py [-v] [REV]      -v prints each place; REV reads another commit's files
"""
import re
import subprocess
import sys

args = [a for a in sys.argv[1:] if a != "-v"]
verbose = "-v" in sys.argv
rev = args[0] if args else None


def git(*words):
    return subprocess.run(["git", *words], capture_output=True, text=True, check=True).stdout


def text(path):
    return git("show", f"{rev}:{path}") if rev else open(path).read()


paths = [p for p in git("ls-tree", "-r", "--name-only", rev or "HEAD", "crates").split()
         if re.search(r"/src/.*\.rt$", p) and not p.endswith("tests.rt")]
files = {}
for p in paths:
    try:
        files[p] = text(p)
    except FileNotFoundError:
        pass


def code(source):
    """The lines without comments and contracts."""
    out = []
    for n, line in enumerate(source.split("\n"), 1):
        bare = line.split("//")[0]
        if not re.match(r"\s*(ensures|requires|ghost)\b", bare):
            out.append((n, bare))
    return out


def lines(pattern):
    return [f"{p}:{n}: {line.strip()}" for p, s in files.items() for n, line in code(s) if re.search(pattern, line)]


def functions():
    for p, s in files.items():
        for m in re.finditer(r"\bfn (\w+)(<[^>]*>)?\(([^)]*)\)", s):
            names = [x.split(":")[0].strip() for x in m.group(3).split(",") if ":" in x]
            yield p, m.group(1), names


def together(*group):
    """Functions that take all of a group of parameters."""
    return [f"{p}: fn {f}" for p, f, names in functions() if set(group) <= set(names)]


def repeated(kind):
    """Clauses of the same words in three functions of a crate or more; of one word between them, as the laws' names, none."""
    seen = {}
    for p, s in files.items():
        crate = p.split("/")[1]
        for m in re.finditer(kind + r"( \w+)? (\{.*\})", s):
            fact = m.group(2) if kind == "ensures" else re.sub(r"\.(old|now|new)\b", "", m.group(2))
            seen.setdefault((crate, fact), []).append(p)
    return [f"{c}: {f} in {len(ps)} functions" for (c, f), ps in seen.items() if len(ps) >= 3]


def loops(indexing):
    """Loops over a range; those whose counter indexes a list in their body, or those whose counter does not."""
    found = []
    for p, s in files.items():
        ls = s.split("\n")
        for n, line in enumerate(ls):
            m = re.match(r"(\s*)for (\w+) in \(?[\w.]+\.\.", line)
            if not m and not re.match(r"\s*(while|loop)\b", line):
                continue
            body = []
            for after in ls[n + 1:]:
                if after.startswith((m.group(1) if m else "") + "}"):
                    break
                body.append(after)
            i = m.group(2) if m else "k"
            indexes = re.search(r"\w\[" + i + r"\b[^.\]]*\]", " ".join(body)) is not None
            if indexes == indexing:
                found.append(f"{p}:{n + 1}: {line.strip()}")
    return found


points = {
    "1 numbers for none": lines(r"\b255\b|\b65535\b|\.min\(2400\)|\b2_?400 if"),
    "1 a number where nothing is answered": lines(r"^pub fn \w+\(\) -> u8"),
    "1 flags for success": lines(r"fn \w+\(&mut self.*-> (bool|Option<\(\)>)"),
    "3 loops that index a list by their counter": loops(True),
    "3 other loops over a range": loops(False),
    "4 a match for a method of Option or Result": lines(
        r"(Err\(\w+\) => Err\()|(None => (return )?Err\()|(Some\(\w+\) => (Ok\(\w+\)|\*\w+))|(Ok\(\w+\) => \w+,)"),
    "4 text, equality and copies by hand": lines(r"fn (text|same_\w+|digit)\("),
    "5 rule and corners": together("rule", "sx", "sy", "dx", "dy", "w", "h"),
    "5 a rectangle's four numbers": [x for x in together("x", "y", "w", "h")],
    "5 an area's four edges": together("left", "top", "right", "bottom"),
    "5 plan and slots": together("plan", "slots"),
    "5 a list and its size": together("words", "size") + together("entries", "size"),
    "5 two arrangements and what moved": together("before", "after"),
    "5 a screen and a store": together("screen", "store"),
    "5 columns and rows": together("columns", "rows"),
    "5 preconditions in three functions or more": repeated("requires"),
    "5 promises of the same words in three functions or more": repeated("ensures"),
    "6 arrays of a fixed length": lines(r"\[(u8|u16|bool|Frame|Rectangle|Option<u16>); \w+\]"),
    "6 a list handed with its length": lines(r"-> \(\[\w+; \d+\], \w+\)|count: u8|, count: u8"),
}
for point, places in points.items():
    print(f"{len(places):4}  {point}")
    if verbose:
        for place in places:
            print("        " + place)
