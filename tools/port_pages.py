#!/usr/bin/env python3
"""Respell the names of definitions and theorems on the pages, as tools/port_names.py respelled them in the crates. Run once, after it.

usage: python3 tools/port_pages.py [--dry]

Turned are, by tools/port_names.tsv, the names in code spans of README.md, CONTRIBUTING.md and docs/**/*.md (not docs/PORT.md), and in
indented blocks there; and those in backquotes in the comments of c/, include/, python/, cli/, examples/, tests/, bench/ and tools/.
`Proof.antt` becomes `Answers.antt`. --dry prints what would change, by line.
"""
import glob
import re
import sys

TOKEN = re.compile(r"[^\s(){}\[\].;,@\"«»:=λ→×`]+")
SPAN = re.compile(r"(?<!`)(`+)(?!`)(.+?)(?<!`)\1(?!`)")
TABLE = dict(line.rstrip("\n").split("\t") for line in open("tools/port_names.tsv", encoding="utf-8"))
# a name that had no dash and no inner capital is that of a function of src/, too: it stays on the pages
TABLE = {old: new for old, new in TABLE.items() if not re.fullmatch(r"[a-z0-9_]+", old)}
# names that the older repository's script turned without a row there: in the old spelling on a page, and declared in the new one
DECLARED = re.compile(r"^\s*(?:(?:pub|abbrev|unfoldable|irreducible|record|data|ruleset)\s+)*([a-z]\w*)\s+[:=]\s", re.M)
NAMES = {name for f in glob.glob("crates/*/specs/**/*.antt", recursive=True) + glob.glob("crates/*/proofs/**/*.antt", recursive=True)
         for name in DECLARED.findall(open(f, encoding="utf-8").read())}
PAGES = ["README.md", "CONTRIBUTING.md"] + [f for f in glob.glob("docs/**/*.md", recursive=True) if f != "docs/PORT.md"]
OTHERS = [f for top in ("c", "include", "python", "cli", "examples", "tests", "bench", "tools") for f in glob.glob(top + "/**/*", recursive=True)
          if re.search(r"\.(c|h|hpp|cc|py|rs)$", f) and not f.startswith("tools/port_") and "/target/" not in f]


def snake(name):
    """The name in the new spelling, where it is an old one and the crates declare that."""
    new = re.sub(r"(?<=[a-z0-9])([A-Z]+)", r"_\1", name.replace("-", "_")).lower()
    return new if re.fullmatch(r"[a-z][\w-]*", name) and new in NAMES else name


def turned(text):
    """Turns the names of a piece of code. In a spelling of the grammar, in double quotes, nothing is a name."""
    text = re.sub(r"\bProof\.antt\b", "Answers.antt", text)
    return TOKEN.sub(lambda m: TABLE.get(m.group()) or snake(m.group()), text)


def page(lines):
    fenced = False
    for line in lines:
        if line.lstrip().startswith("```"):
            fenced = not fenced
        elif fenced or line.startswith("    ") and not re.match(r"\s*([-*]|\d+\.) ", line):
            if not fenced:
                line = turned(line)
        else:
            line = SPAN.sub(lambda m: m.group(1) + turned(m.group(2)) + m.group(1), line)
        yield line


def other(lines):
    for line in lines:
        yield SPAN.sub(lambda m: m.group(1) + turned(m.group(2)) + m.group(1), line)


def main():
    dry = "--dry" in sys.argv
    for path in sorted(PAGES) + sorted(OTHERS):
        try:
            text = open(path, encoding="utf-8").read()
        except (IsADirectoryError, UnicodeDecodeError):
            continue
        lines = text.split("\n")
        new = list((page if path.endswith(".md") else other)(lines))
        if dry:
            for i, (a, b) in enumerate(zip(lines, new), 1):
                if a != b:
                    print("%s:%d: %s" % (path, i, "  ".join("%s>%s" % p for p in zip(TOKEN.findall(a), TOKEN.findall(b)) if p[0] != p[1])))
        elif new != lines:
            open(path, "w", encoding="utf-8").write("\n".join(new))


main()
