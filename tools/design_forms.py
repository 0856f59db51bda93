#!/usr/bin/env python3
"""Places in crates/*/src by their form alone, whatever they are named: the second count of docs/DESIGN-PASS.md.

usage: python3 tools/design_forms.py [FOLDER] [--list]

FOLDER is the top of a checkout, this repository if none is named. Prints how many places there are of each form, with --list each of them. A form is no fault:
which of them stand for an older way of writing is said on the page.
"""
import re
import sys
from collections import defaultdict
from pathlib import Path

# point, the form, and the pattern that is put to each line of code
LINES = [
    (1, "a number where nothing is there", r"unwrap_or\(0\)|(Err\(_\)|None|_) => 0,|: usize = 255\b|== 255\b|return 255\b"),
    (1, "a refusal told by number", r"number: \d+|\.number [!=]= "),
    (3, "`while` and `loop`", r"\bwhile .* \{$|\bloop \{$"),
    (3, "a `for` over numbers", r"\bfor \w+ in .*\.\..* \{$"),
    (3, "a variable that counts up by one", r"\b[\w.]+ \+= 1;"),
    (4, "a cast by `as` to a wider type", r" as usize\b| as u32\b| as u64\b"),
    (4, "a cast by `as` to a narrower type", r" as u8\b| as u16\b"),
    (4, "an `impl` of equality, order, copying, conversion or printing", r"^impl\b.* (PartialEq|Eq|PartialOrd|Ord|Clone|Copy|From|Into|TryFrom|Display|Debug)\b.* for "),
    (6, "a field that is an array of words or bytes of a fixed length", r"^    (pub )?\w+: \[+(u8|u16|usize|bool)\b.*; \d+\],?$"),
    (6, "a lent array of a fixed length", r"&(mut )?\[+(u8|u16|usize|bool)\b.*; \d+\]"),
    (7, "a closure or a bound of one", r"\|[\w&, ]*\| |\bFn(Mut|Once)?\("),
]


def code(path):
    """The lines of code, clauses with them, without comments and imports."""
    lines = path.read_text().split("\n")
    return [(i, line) for i, line in enumerate(lines, 1) if not line.strip().startswith("//") and not re.match(r"(ghost )?use ", line)]


def functions(path):
    """Each function's name, parameters, clauses and body."""
    text = "\n".join(line for _, line in code(path))
    for found in re.finditer(r"^( *)(?:pub(?:\(\w+\))? )?(?:extern \"C\" )?fn (\w+)[^\n(]*\((.*?)\)(.*?)\n\1(?:\}|\{(.*?)\n\1\})$", text, re.S | re.M):
        yield found[2], found[3], found[4], found[5] or ""


def parameters(words):
    return [tuple(part.strip() for part in word.split(":", 1)) for word in re.split(r",\s*(?![^\[<(]*[\]>)])", words) if ":" in word]


def main():
    arguments = [a for a in sys.argv[1:] if a != "--list"]
    top = Path(arguments[0] if arguments else Path(__file__).resolve().parent.parent)
    sources = sorted(top.glob("crates/*/src/*.rt"))
    found = [(point, what, [f"{p.relative_to(top)}:{i}: {line.strip()}" for p in sources for i, line in code(p) if re.search(pattern, line)]) for point, what, pattern in LINES]

    bodies, facts, pairs = defaultdict(list), defaultdict(list), defaultdict(list)
    for p in sources:
        for name, words, clauses, body in functions(p):
            where = f"{p.relative_to(top)}: {name}"
            # a body without its names and numbers
            shape = re.sub(r"\b[a-z_]\w*\b|\b\d+\b", "_", re.sub(r"\s+", " ", body))
            if shape.count(";") + shape.count("{") > 1:
                bodies[shape].append(where)
            for clause in re.findall(r"requires (?:\w+ )?\{ (.*?) \}\n", clauses + "\n", re.S):
                for fact in re.findall(r"\(?\b([A-Z]\w+)(?: |\b)", clause)[:1]:
                    facts[fact].append(where)
            types = sorted({kind for name_, kind in parameters(words) if kind.startswith("&") or kind[0].isupper()})
            for i, a in enumerate(types):
                for b in types[i + 1:]:
                    pairs[a, b].append(where)
    found.append((2, "functions of one shape but for names and numbers", [", ".join(v) for v in bodies.values() if len(v) > 1]))
    found.append((5, "a named fact in the `requires` of three functions or more", [f"{k}: {len(v)}: {', '.join(v)}" for k, v in sorted(facts.items()) if len(v) > 2]))
    found.append((5, "two references or structs that three functions or more take together", [f"{' and '.join(k)}: {len(v)}" for k, v in sorted(pairs.items()) if len(v) > 2]))
    for point, what, places in sorted(found, key=lambda f: f[0]):
        print(f"{point}. {what}: {len(places)}")
        if "--list" in sys.argv:
            print("".join(f"     {place}\n" for place in places), end="")


main()
