#!/usr/bin/env python3
"""Spells the repository's own definitions and lemmas in snake case, as the library spells its words.

    python3 tools/snake_names.py

Run it at the top of the repository. A name counts as the repository's own where a file of specs/ or proofs/ declares it:
a definition, a lemma, a record's field, or a helper in a file of answers. Names that the check makes (a goal's, a step's)
keep their dashes. Where two names would fall together, it changes nothing and says which.
"""
import re
import sys
from pathlib import Path

CHAR = r"[\w'-]"
WORD = re.compile(rf"(?<![\w'-])[^\W\d]{CHAR}*")
DECLARED = re.compile(r"^(?:(?:pub|abbrev|unfoldable) )*([^\W\d][\w'-]*) :(?! goal\.)", re.M)
FIELD = re.compile(r"^  (?:pub )?([^\W\d][\w'-]*) :(?! goal\.)", re.M)


def sources(kinds):
    return sorted(p for p in Path("crates").rglob("*") if p.suffix in kinds and "out" not in p.parts)


def own_names():
    """The names with a dash that the repository declares, and those of them that are fields."""
    names, fields = set(), set()
    for path in sources({".antt"}):
        text = path.read_text()
        names |= {n for n in DECLARED.findall(text) if "-" in n}
        fields |= {n for n in FIELD.findall(text) if "-" in n}
    return names | fields, fields


def clashes(names):
    """Names whose new spelling stands in the repository already (but as a module's, in a path), or that two share."""
    new = {}
    for name in names:
        new.setdefault(name.replace("-", "_"), []).append(name)
    words = set()
    for path in sources({".antt"}):
        text = path.read_text()
        words |= {m.group() for m in WORD.finditer(text) if text[m.end() : m.end() + 1] != "."}
    shared = [" and ".join(old) for old in new.values() if len(old) > 1]
    return shared + [f"{name} and {name.replace('-', '_')}" for name in names if name.replace("-", "_") in words]


def respelled(text, names, fields):
    def word(match):
        name = match.group()
        behind_dot = match.start() > 0 and text[match.start() - 1] == "."
        if name not in names or (behind_dot and name not in fields):
            return name
        return name.replace("-", "_")

    return WORD.sub(word, text)


def main():
    names, fields = own_names()
    found = clashes(names)
    if found:
        print("\n".join(f"fall together: {pair}" for pair in found))
        return 1
    pages = sorted(Path("docs").glob("*.md"))
    changed = 0
    for path in sources({".antt", ".rt", ".edit"}) + pages:
        text = path.read_text()
        new = respelled(text, names, fields)
        if new != text:
            path.write_text(new)
            changed += 1
    print(f"{len(names)} names, {changed} files")
    return 0


sys.exit(main())
