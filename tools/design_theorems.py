#!/usr/bin/env python3
"""Theorems and lemmas of docs/DESIGN-PASS.md, old and new, and the functions that are methods now.

usage: python3 tools/design_theorems.py OLD PORT [PAGE]

OLD and PORT are checkouts of the commits in the first lines of the page and of docs/PORT.md. Prints the section of methods and the section of theorems that
changed; with PAGE, puts them in place of those that stand there, and keeps the words between a section's heading and its first crate. Then it prints each
public name of OLD's proofs that is gone and that the page's section of lemmas does not have in the rows of its crate.
"""
import re
import sys
from pathlib import Path

GENERATED = ("Answers.antt", "Proof.antt", "Invariants.antt", "Lib.antt", "Goals.antt")
WORDS = r"(?:(?:unfoldable|abbrev|pub|record|data)\s+)*"
DECLARED = re.compile(rf"^(\s*)({WORDS})([^\s:(){{}}=]+)\s*((?:\([^)]*\)|\{{[^}}]*\}}|\s)*):(?!=)\s?(.*)$")
ANY_DECLARED = re.compile(rf"^\s*({WORDS})([^\s:({{]+)\s*(?:[:({{]|$)")

# Crate and file of functions, their names (NAME:METHOD where the method's is another), and the crate and type of the methods.
METHODS = [
    ("image", "image.rt", "states subformulas nodes owner label source target first_edge last_into next_into place subformula", "image", "Image"),
    ("rule_lines", "lines.rt", "count find keep", "rule_lines", "Lines"),
    ("rule_lines", "joining.rt", "keep_left keep_not_both keep_joined", "rule_lines", "Lines"),
    ("rule_reader", "parse.rt", "expression prefix_form closed_form marked_form parenthesized until_form", "rule_reader", "Reader"),
    ("edge_pass", "lib.rt", "is_right_next:is_right order_after:after", "edge_pass", "Order"),
    ("edge_pass", "lib.rt", "terminal_state", "edge_pass", "Kept"),
    ("stepping", "stale.rt", "is_stale clear_row:clear_node", "pending", "Pending"),
    ("closing", "lib.rt", "mark_columns:mark_subformula", "pending", "Pending"),
]
# Theorems that no document names, and that say of every call what its table is left as.
BESIDES = {"reading_refused", "step_tracked", "copy_tracked", "close_tracked", "parsed_stands", "line_none", "output_right"}


def spelled(name):
    """A name as it is spelled today: the older spelling had hyphens and inner capitals."""
    if name[:1].islower():
        name = re.sub(r"([a-z0-9])([A-Z])", lambda m: m.group(1) + "_" + m.group(2).lower(), name)
    return name.replace("-", "_")


def files(tree, ending):
    return [(f, str(f.relative_to(tree))) for f in sorted(Path(tree).glob(f"crates/*/**/*{ending}"))]


def squeezed(parts):
    return re.sub(r"\s+", " ", " ".join(parts)).strip()


def indent(line):
    return len(line) - len(line.lstrip())


def theorems(tree):
    """(crate, name) -> its declarations in proofs/, as (file, words, telescopes, statement)."""
    found = {}
    for f, name in files(tree, ".antt"):
        crate, folder = name.split("/")[1:3]
        if folder != "proofs" or name.endswith(GENERATED):
            continue
        lines, modules, i = f.read_text().splitlines(), [], 0
        while i < len(lines):
            line, text = lines[i], lines[i].strip()
            if text and not text.startswith("--") and text != "where":
                while modules and modules[-1][0] >= indent(line):
                    modules.pop()
            part = [text]
            if text.startswith("module "):
                while not lines[i].strip().endswith("where"):
                    i += 1
                    part.append(lines[i].strip())
                modules.append((indent(line), re.sub(r"^module _ | where$", "", squeezed(part))))
            elif (m := DECLARED.match(line)) and not text.startswith(("use ", "let ", "in ", "λ", "--")):
                while i + 1 < len(lines) and lines[i + 1].strip() and indent(lines[i + 1]) > indent(line):
                    i += 1
                    part.append(lines[i].strip())
                statement = squeezed(part)[len(m.group(2)) + len(m.group(3)):].strip()
                place = "/".join(name.split("/")[2:])
                found.setdefault((crate, m.group(3)), []).append((place, m.group(2), squeezed(t for _, t in modules), statement))
            i += 1
    return found


def named(tree):
    """The names that README and docs/ have between backticks."""
    pages = [Path(tree) / "README.md", *sorted(Path(tree).glob("docs/*.md"))]
    text = "\n".join(p.read_text() for p in pages if p.name != "DESIGN-PASS.md")
    return {spelled(w) for code in re.findall(r"`([^`\n]+)`", text) for w in re.findall(r"[A-Za-z_][\w'-]*", code)}


def functions(tree):
    """(crate, Type or file, name) -> the signature and the clauses."""
    found = {}
    for f, name in files(tree, ".rt"):
        if "/src/" not in name:
            continue
        lines, within = f.read_text().splitlines(), f.name
        for i, line in enumerate(lines):
            if re.match(r"impl\b", line):
                within = re.sub(r"<.*", "", line.replace("{", "").split(" for ")[-1].split()[-1])
                if line.startswith("impl<"):
                    within = re.sub(r"<.*", "", re.sub(r"^impl<[^>]*>\s*", "", line).replace("{", "").split(" for ")[-1].split()[0])
            elif line.startswith("}"):
                within = f.name
            elif m := re.match(r"(\s*)(?:pub(?:\(crate\))? )?fn (\w+)", line):
                part = [line.strip()]
                for later in lines[i + 1:]:
                    if later.startswith(m.group(1) + "{"):
                        break
                    part.append(later.strip())
                clauses = re.split(r"\s+(?=(?:requires|ensures)\b)", squeezed(part))
                found[name.split("/")[1], within, m.group(2)] = clauses
    return found


def methods(old, new):
    before, now = functions(old), functions(new)
    for crate, place, names, now_crate, kind in METHODS:
        for name, _, method in (n.partition(":") for n in names.split()):
            method = method or name
            lines = [f"  {name}, now {kind}::{method}" + (f" of {now_crate}" if now_crate != crate else "")]
            lines += [f"- {part}" for part in before[crate, place, name]]
            lines += [f"+ {part}" for part in now[now_crate, kind, method]]
            yield crate, lines


def changed(old, new, names):
    before, now = theorems(old), theorems(new)
    for (crate, name), entries in sorted(before.items()):
        if (crate, name) not in now:
            continue
        wanted = crate in ("promises", "demands") or name in BESIDES or spelled(name) in names and ("_" in name or name[:1].isupper())
        for place, words, where, statement in entries:
            # a name that is public no more stands for another lemma, and is with those that are gone
            later = [e for e in now[crate, name] if "pub" in e[1] or "pub" not in words]
            if not wanted or not later or "abbrev" in words or (where, statement) in [(e[2], e[3]) for e in later]:
                continue
            same_place = [e for e in later if e[0] == place] or later
            yield crate, [f"  {place} {name}", f"- {squeezed([where, statement])}"] + [f"+ {squeezed([e[2], e[3]])}" for e in same_place]


def blocks(entries):
    crates = {}
    for crate, lines in entries:
        crates.setdefault(crate, []).extend(lines)
    return "".join(f"**`{crate}`**\n\n```diff\n" + "\n".join(lines) + "\n```\n\n" for crate, lines in sorted(crates.items()))


def public(tree):
    """(crate, name) of each public declaration in proofs/, and of every declaration in specs/ and proofs/."""
    mine, every = [], set()
    for f, name in files(tree, ".antt"):
        crate, folder = name.split("/")[1:3]
        if folder not in ("specs", "proofs") or name.endswith(GENERATED):
            continue
        for line in f.read_text().splitlines():
            m = ANY_DECLARED.match(line)
            if m and m.group(2) not in ("use", "mod", "ruleset") and "pub" in m.group(1).split():
                every.add((crate, m.group(2)))
                if folder == "proofs":
                    mine.append((crate, m.group(2)))
    return mine, every


def missing(old, new, page):
    section = page[page.index("## Lemmas that are gone"):]
    section = section[: section.index("\n## ")]
    rows = {}
    for row in section.splitlines():
        if m := re.match(r"\| `(\w+)`", row):
            rows.setdefault(m.group(1), set()).update(re.findall(r"`([^`]+)`", row))
    still = public(new)[1]
    gone = [d for d in dict.fromkeys(public(old)[0]) if d not in still]
    return [f"{crate}: {name}" for crate, name in gone if name not in rows.get(crate, ())]


def main():
    old, port = sys.argv[1], sys.argv[2]
    new = Path(__file__).resolve().parent.parent
    sections = [
        ("## Functions that are methods now", methods(old, new)),
        ("## Theorems that changed", changed(old, new, named(old) | named(port))),
    ]
    if len(sys.argv) < 4:
        for heading, entries in sections:
            print(heading + "\n\n" + blocks(entries), end="")
        return
    place = Path(sys.argv[3])
    page = place.read_text()
    for heading, entries in sections:
        start = page.index(heading)
        end = page.find("\n## ", start) + 1 or len(page)
        words = re.split(r"^\*\*`", page[start:end], maxsplit=1, flags=re.M)[0].rstrip()
        page = page[:start] + words + "\n\n" + blocks(entries) + page[end:]
    place.write_text(page)
    print("\n".join(missing(old, new, page)))


main()
