#!/usr/bin/env python3
"""Spells the repository's own definitions, lemmas, fields and variables of .antt files in snake case: isDigit and is-digit as is_digit.

usage: tools/spelling.py [--names]        at the top of the repository; with --names it writes nothing and lists each name with its new spelling

To be run once, behind the toolchain's port.py. Types and modules stay, and so does each name that a file imports from a library. A lemma that would
meet the definition that it is about gets `_lem`. A name that follows from one of the source (a step `read-field` of a call of read_field) is spelled as
the source has it. In a .rt file what stands in clauses and `ghost use` lines is turned, and camel case in comments.
"""
import os
import re
import sys

WORD = re.compile(r'[^\s(){}.;,@"«»]+')
COMMENT = re.compile(r'(?m)(?<![^\s(){}.;,@"])--[^\n]*')
STRING = re.compile(r'"(?:[^"\\\n]|\\.)*"')
CAMEL = re.compile(r"^[a-z][\w'₀-₉]*[A-Z][\w'₀-₉]*$")
DASHED = re.compile(r"^[a-z0-9][\w'₀-₉]*(-[\w'₀-₉]+)+$")
USE = re.compile(r"(?m)^\s*(?:pub )?(?:ghost )?use ([^\s;{]+?)(?:\.\{([^}]*)\})?(?: as \S+)?;?$")
# Words of Rattle's: goals, places and fields of the walks, and what it makes of a function.
MADE = re.compile(r"^(?:Need-|Else|Then|After-|In-|At-|if-|loop-|in-|invariant-|decreases-|well-formed|type-inv)")
# A field that would meet a definition beside it; lemmas in snake case already that would meet their definition.
SPELLED = {"mark-at": "at_state", "page-buffer": "page_written", "edges-from": "edges_from", "not-both": "not_both"}
MET = {"kept_of": "kept_of_lem", "ruled_out": "ruled_out_lem"}


def files():
    for folder, folders, names in os.walk("crates"):
        folders[:] = sorted(f for f in folders if f != "out")
        for name in sorted(names):
            if name.endswith((".antt", ".rt")):
                yield os.path.join(folder, name)


def snake(word):
    return re.sub(r"(?<=[a-z0-9₀-₉'])([A-Z])", lambda m: "_" + m[1].lower(), word).replace("-", "_")


def code(text):
    return STRING.sub("", COMMENT.sub("", text))


def declared(text):
    """The names that an antt text declares or binds."""
    words = set()
    for m in re.finditer(r"(?m)^\s*(?:let |(?:pub|abbrev|unfoldable|private) )*((?:[^\s:(){}.]+ )+):(?= |$)", text):
        words.update(m[1].split())
    for pattern in (r"let ([^=\n]+?) [=:]", r"λ ([^.\n]+)\.", r"\(([^\s:(){}.]+(?: [^\s:(){}.]+)*) :"):
        for m in re.finditer(pattern, text):
            words.update(WORD.findall(m[1]))
    for m in re.finditer(r"(?m)^\s*[^\s:=]+((?: (?:[^\s:=(){}]+|\([^()=:]*\)))+) =", text):
        words.update(WORD.findall(m[1]))
    return words


def plan():
    texts = {path: open(path, encoding="utf-8").read() for path in files()}
    own = set(os.listdir("crates"))
    ours, items = set(), set()
    for path, text in texts.items():
        if path.endswith(".antt"):
            ours |= {w for w in declared(code(text)) if (CAMEL.match(w) or DASHED.match(w)) and not MADE.match(w)}
        else:
            items |= set(re.findall(r"\b(?:fn|mod|let|let mut) (\w+)", text)) | set(re.findall(r"\b(\w+):", text))
    for text in texts.values():
        for m in USE.finditer(text):
            steps = m[1].split(".")
            if steps[0] == "Rattle" and len(steps) > 1 and os.path.exists(os.path.join("crates", *steps[1:]) + ".antt"):
                words = [re.split(r" as ", it.strip())[0] for it in (m[2] or "").split(",")]
                ours |= {w for w in words if CAMEL.match(w) or DASHED.match(w)}
    for text in texts.values():
        for m in USE.finditer(text):
            aliases = re.findall(r" as ([^\s,;}]+)", m[0])
            ours |= {w for w in aliases if CAMEL.match(w) or DASHED.match(w)}
    lent = {}
    for path, text in texts.items():
        lent[path] = set()
        for m in USE.finditer(text):
            steps = m[1].split(".")
            if not (steps[0] == "Rattle" and len(steps) > 1 and steps[1] in own):
                lent[path] |= {re.split(r" as ", it.strip())[0] for it in (m[2] or "").split(",")}
    definitions = {snake(w) for w in ours if CAMEL.match(w)}
    kept = set()
    for path, text in texts.items():
        if path.endswith(".antt"):
            kept |= {w for w in declared(code(text)) if "_" in w}
    names = {}
    for word in sorted(ours):
        new = snake(word)
        if DASHED.match(word) and (new in definitions or new in kept and new in {"job_of", "is_empty"}):
            new += "_lem"
        names[word] = SPELLED.get(word, new)
    return texts, names, items, lent


def main():
    texts, names, items, lent = plan()
    if "--names" in sys.argv:
        for word in sorted(names):
            print(word, names[word])
        return
    for path, text in texts.items():
        here = {w: n for w, n in names.items() if w not in lent[path]}
        met = {w: n for w, n in MET.items() if any(o in here and snake(o) == w and CAMEL.match(o) for o in set(WORD.findall(code(text))))}

        def turn(word, behind):
            if word in here:
                return snake(word) if behind and here[word].endswith("_lem") and behind[0].islower() else here[word]
            if word in met and not behind:
                return met[word]
            if DASHED.match(word) and word not in lent[path] and not MADE.match(word):
                stem = re.sub(r"\d+$", "", snake(word))
                if stem in items or re.sub(r"_(requires|ensures|spec|arg)$", "", stem) in items:
                    return snake(word)
            return word

        def chain(part):
            """Each dotted chain from its head."""
            return re.sub(
                r'[^\s(){};,@"«»]+',
                lambda m: ".".join(turn(w, m[0].split(".")[i - 1] if i else ("c" if m.start() and part[m.start() - 1] == ")" and m[0].startswith(".") else "")) if w else w for i, w in enumerate(m[0].split("."))),
                part,
            )

        def prose(part):
            part = re.sub(r"\x60[^\x60\n]+\x60", lambda m: chain(m[0][1:-1]).join("\x60\x60"), part)
            return re.sub(r"\b[a-z]\w*[A-Z]\w*\b", lambda m: here.get(m[0], m[0]), part)

        if path.endswith(".antt"):
            out, last = [], 0
            for m in re.finditer(COMMENT.pattern + "|" + STRING.pattern, text):
                out += [chain(text[last : m.start()]), prose(m[0]) if m[0].startswith("--") else m[0]]
                last = m.end()
            new = "".join(out) + chain(text[last:])
        else:
            new = []
            for line in re.split(r"(?m)^", text):
                head, slashes, comment = line.partition("//")
                new.append((chain(head) if slashes == "" or head.strip() else head) + slashes + prose(comment))
            new = "".join(new)
        if new != text:
            with open(path, "w", encoding="utf-8") as f:
                f.write(new)


if __name__ == "__main__":
    main()
