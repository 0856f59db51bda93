#!/usr/bin/env python3
"""The lists at the end of docs/DESIGN-PASS.md: signatures, clauses and definitions, old and new.

usage: python3 tools/design_lists.py CONTRACTS [PAGE]

CONTRACTS is what the toolchain's comparison of two checkouts (its `contracts.py OLD NEW --json`) prints, OLD the commit in the page's first line. Prints the
lists; with PAGE, puts them in place of those from '## Signatures that changed' on, and keeps the words between a section's heading and its first crate.
"""
import json
import re
import sys
from pathlib import Path


def by_crate(entries):
    """Entries (crate, lines) as one block a crate, in order."""
    crates = {}
    for crate, lines in entries:
        crates.setdefault(crate, []).extend(lines)
    return "".join(f"**`{crate}`**\n\n```diff\n" + "\n".join(lines) + "\n```\n\n" for crate, lines in sorted(crates.items()))


def clauses(word, old, new):
    def line(sign, clause):
        name, text = clause
        return f"{sign} {word} {name + ' ' if name else ''}{{ {text} }}"
    kept = [c for c in old if c in new]
    return [line(" ", c) for c in kept] + [line("-", c) for c in old if c not in kept] + [line("+", c) for c in new if c not in kept]


def signatures(told):
    for name, old, new in sorted(told["signatures changed"]):
        crate, place = name.split(" ", 1)
        yield crate, ["  " + place, "- " + old, "+ " + new]


def contracts(told):
    for name, requires, ensures, requires_now, ensures_now in sorted(told["contracts changed"]):
        crate, place = name.split(" ", 1)
        yield crate, ["  " + place] + clauses("requires", requires, requires_now) + clauses("ensures", ensures, ensures_now)


def definitions(told):
    for crate, _, old, new in sorted(told["definitions"]["changed"]):
        yield crate, ["- " + " ".join(text.split()) for text in old] + ["+ " + " ".join(text.split()) for text in new]


SECTIONS = [("## Signatures that changed", signatures), ("## Clauses that changed", contracts), ("## Definitions that changed", definitions)]


def main():
    told = json.loads(Path(sys.argv[1]).read_text())
    page = Path(sys.argv[2]) if len(sys.argv) > 2 else None
    text = page.read_text() if page else "".join(heading + "\n\n" for heading, _ in SECTIONS)
    out = text[: text.index(SECTIONS[0][0])]
    for i, (heading, entries) in enumerate(SECTIONS):
        start = text.index(heading)
        end = text.index(SECTIONS[i + 1][0]) if i + 1 < len(SECTIONS) else len(text)
        words = re.split(r"^\*\*`", text[start:end], maxsplit=1, flags=re.M)[0].rstrip()
        out += words + "\n\n" + by_crate(entries(told))
    out = out.rstrip() + "\n"
    if page:
        page.write_text(out)
    else:
        print(out, end="")


main()
