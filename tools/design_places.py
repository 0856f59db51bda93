#!/usr/bin/env python3
"""Places in crates/*/src where an older form of the language may stand, by the points of docs/DESIGN-PASS.md.

usage: python3 tools/design_places.py [FOLDER] [--list]

FOLDER is the top of a checkout, this repository if none is named. Prints how many places each search finds, with --list each of them.
"""
import re
import sys
from pathlib import Path

# point, what is searched, and the pattern. A pattern is put to each line that is no comment, but `enum` and `loop`, which are put to whole items.
LINES = [
    (1, "numbers in place of refusals: a call's answer that is the number of a question, or 0", r"\bfn \w*_no\(|\bnumber: u8\b|\.number [!=]= 0|\bNO_NODE\b.*usize"),
    (1, "numbers in place of kinds", r"\bkind: usize|\bfn (kind_of|until_kind)\b|\bMark\(u8\)|\bc: u8, lines\b|at: usize, c: u8\)|\balso: u8|\bvalue: u8,$|Condition, u8\)|-> u16$"),
    (1, "flags kept as bytes", r"\b(stale|news|starts|marks|small|out): &(mut )?\[u8; \d+\]|\b(stale|news|starts) = \[[01]u8"),
    (1, "a number that stands for none", r"return Part \{ start: 0|Refusal \{ number: 0|\bHeader \{$|unwrap_or\(0\)|width: 1,$|return NO_NODE|states: 0,"),
    (2, "functions of one form for several types or sizes", r"\bpub fn of_(read|fresh|step|offer|accept|look|close|finish|page|rule)\b|\bpub fn read_(pair|triple)\b|\bpub fn read_(states|formulas)\b|\bfn (lay|store)\(m: |\bfn (write_spaces|write_two)\b|\bfn (one_operand|two_operands)\b|\bfn (fill_marked|close_node|copy_column)\b|\bfn fill_values\b"),
    (2, "types that differ in a type, a size or a name only", r"\bpub struct Output\b|\bpub enum (Pair|Triple|Stepped|Delivered|Cleared|Paged)\b|\bpub struct (Growth|Lines|Verdict|Closing)\b|\bstruct Rounds\b"),
    (3, "an index counted by hand", r"\b(i|e|s|head|tail|rounds) \+= 1;"),
    (3, "a `for` over indices that only reads one list", r"\bfor \w+ in 0\.\.(\w+\.len\(\)|count|n|states|fields) \{"),
    (4, "equality, order, copying, conversion and printing by hand", r"\bfn (is_less|is_line|are|wide|kind_of|until_kind|row|refused_by|refuse|both|digit_column|write_field|first_numbers|letter_or_digit|between|is_within)\("),
    (5, "the image's invariant in a contract", r"requires (\w+ )?\{ (\(?IsImage|Lent|Ready|Running)\b"),
    (5, "other facts in three or more contracts", r"HoldsLines (lines|out)\.|length (stale|news|m|queue|starts)\.(old|now) ≡|\bat ≤ length text\.now|\(n < \(job_of m\.now\)\.nodes\)"),
    (5, "parameters that travel together", r"m: &(mut )?Image, (table|stale)|\bstale: &mut \[u8; 256\], news|text: &\[u8\], at: usize|kind: usize, a: usize, b: usize|^    stale: &mut"),
    (6, "a buffer with its length beside it", r"pub length: usize|\blet mut tail\b|lines\[99\]|old: usize,$"),
    (6, "regions of one array, and numbers that name their places", r"^pub const [A-Z]+: usize = \d+;|\bword\(m, "),
    (7, "a switch on which step to run", r"Asking::|\bfn own_no\b"),
]


def code(path):
    return [(i, line) for i, line in enumerate(path.read_text().split("\n"), 1) if not line.strip().startswith("//") and not line.startswith("ghost use")]


def two_cases(path):
    """Enums of two cases of which one is empty, or is a refusal."""
    text = "\n".join(line for _, line in code(path))
    for name, body in re.findall(r"enum (\w+) \{(.*?)\n\}", text, re.S):
        cases = re.findall(r"^    (\w+)(\(.*\))?,$", body, re.M)
        if len(cases) == 2 and (not cases[1][1] or cases[1][0] == "Refused"):
            yield name


def while_loops(path):
    for i, line in code(path):
        if re.search(r"\bwhile .* \{$|\bloop \{$", line):
            yield i, line


def main():
    arguments = [a for a in sys.argv[1:] if a != "--list"]
    top = Path(arguments[0] if arguments else Path(__file__).resolve().parent.parent)
    listed = "--list" in sys.argv
    sources = sorted(top.glob("crates/*/src/*.rt"))
    found = [(1, "enums of the shape of Option or Result", [f"{p.relative_to(top)}: {n}" for p in sources for n in two_cases(p)])]
    found += [(3, "`while` and `loop`", [f"{p.relative_to(top)}:{i}: {line.strip()}" for p in sources for i, line in while_loops(p)])]
    for point, what, pattern in LINES:
        found.append((point, what, [f"{p.relative_to(top)}:{i}: {line.strip()}" for p in sources for i, line in code(p) if re.search(pattern, line)]))
    for point, what, places in sorted(found, key=lambda f: f[0]):
        print(f"{point}. {what}: {len(places)}")
        if listed:
            print("".join(f"     {p}\n" for p in places), end="")


main()
