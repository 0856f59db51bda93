"""A model of rule text, written apart from the product.

It follows requests (i) ("Rules typed as text") and, for `EG` and `AG`, (iii) of
document 02 and nothing else.  Names in quotes are those requests' words.

* `tree`: the one reading of a text.  The texts are read from the bottom up, by
  a table that is made of the grammar (SLR(1)); the table cannot be made where
  the grammar has two readings of a text.
* `rewritten`, `lines`: the rule without `|` and `=>`, and its lines.
* `rule`: the call.  It gives all the numbers of the answer (number and line
  first) and the lent buffer afterwards, as the calls of checker.py do.
* `holding`: CTL truth of a tree, `|` and `=>` as they are; it shares nothing
  with the lines, nor with the truth of checker.py.
* `printed`: what the program `rule` prints.

Run as a program it is a stand-in for `rule`: rule text on standard input.
"""

from __future__ import annotations

import re
import sys

from checker import AG, AND, ATOM, AU, AX, EG, EU, EX, NOT
from checker import Answer, Job, Rule, ask, call
from generate import written, written_line

ROOM = 512
"""The bytes of the lent buffer."""

LONGEST = 512
"""The bytes of the longest text."""

MOST = 32
"""The most lines."""

Tree = tuple
"""A word and its operands: ("p3",), ("!", f), ("=>", f, g), ("A", f, g)."""

KINDS = {"!": NOT, "&": AND, "AX": AX, "EX": EX, "A": AU, "E": EU, "EG": EG, "AG": AG}
"""The kind of the line that is a word's own."""


# --------------------------------------------------------------------------
# The grammar
# --------------------------------------------------------------------------

Production = tuple[str, tuple[str, ...]]
"""A name, and the names and tokens that it may stand for."""

GRAMMAR: list[Production] = [
    (name, tuple(symbols.split()))
    for name, symbols in (
        ("text", "rule"),
        ("rule", "either => rule"),
        ("rule", "either"),
        ("either", "either | both"),
        ("either", "both"),
        ("both", "both & prefixed"),
        ("both", "prefixed"),
        ("prefixed", "! prefixed"),
        ("prefixed", "AX prefixed"),
        ("prefixed", "EX prefixed"),
        ("prefixed", "EG prefixed"),
        ("prefixed", "AG prefixed"),
        ("prefixed", "closed"),
        ("closed", "A [ rule U rule ]"),
        ("closed", "E [ rule U rule ]"),
        ("closed", "( rule )"),
        ("closed", "atom"),
    )
]
""" "Prefix `!`, `AX`, `EX` bind tightest.  Then come `&`, `|`, `=>`, weaker in
this order; `&` and `|` group to the left, `=>` to the right.  `A[f U g]`,
`E[f U g]` and `(f)` are closed forms."  "`EG` and `AG` as prefixes like `AX`." """

NAMES = {name for name, _ in GRAMMAR}

END = ""
"""Stands behind the last token."""

SILENT = ("[", "U", "]", "(", ")")
"""Tokens that leave nothing in a tree."""

Item = tuple[str, tuple[str, ...], int]
"""A production, and how many of its symbols are read."""

State = frozenset[Item]
"""All productions that what is read so far may belong to."""


def started(items: set[Item]) -> State:
    """The items, and the productions that may begin where they stand."""
    found, waiting = set(items), list(items)
    while waiting:
        _, symbols, at = waiting.pop()
        for name, its in GRAMMAR:
            item = (name, its, 0)
            if symbols[at : at + 1] == (name,) and item not in found:
                found.add(item)
                waiting.append(item)
    return frozenset(found)


def followers() -> dict[str, set[str]]:
    """The tokens that may stand behind each symbol.  Nothing stands for no
    token at all, so what begins a symbol begins its first."""
    symbols = NAMES.union(*(its for _, its in GRAMMAR))
    first = {symbol: {symbol} - NAMES for symbol in symbols}
    behind: dict[str, set[str]] = {symbol: set() for symbol in symbols}
    behind["text"].add(END)
    for _ in symbols:  # each time a step further; no chain of names is longer
        for name, its in GRAMMAR:
            first[name] |= first[its[0]]
            for symbol, following in zip(its, its[1:]):
                behind[symbol] |= first[following]
            behind[its[-1]] |= behind[name]
    return behind


def made_table(begin: State) -> dict[tuple[State, str], State | Production]:
    """For a state and a symbol that comes: the next state, or the production
    that is complete before it.  Never both, nor two: one reading."""
    behind = followers()
    table: dict[tuple[State, str], State | Production] = {}
    found, waiting = {begin}, [begin]
    while waiting:
        state = waiting.pop()
        further: dict[str, set[Item]] = {}
        for name, its, at in state:
            if at < len(its):
                further.setdefault(its[at], set()).add((name, its, at + 1))
            else:
                for token in behind[name]:
                    assert (state, token) not in table, (name, its, token)
                    table[state, token] = name, its
        for symbol, items in further.items():
            assert (state, symbol) not in table, (items, symbol)
            table[state, symbol] = after = started(items)
            if after not in found:
                found.add(after)
                waiting.append(after)
    return table


BEGIN = started({(*GRAMMAR[0], 0)})
TABLE = made_table(BEGIN)


# --------------------------------------------------------------------------
# Reading
# --------------------------------------------------------------------------

WORDS = re.compile(rb"[A-Za-z0-9]+|=>|[^ ]")
""" "Spaces may stand before, between and after tokens and must stand between
two of letters or digits": such a token is all of a run of these."""

ATOMS = re.compile(rb"p([0-9]|1[0-5])")

TOKENS = {symbol for _, its in GRAMMAR for symbol in its} - NAMES - {"atom"}
"""The tokens that are spelled in the grammar."""


def tokens(text: bytes) -> list[tuple[str, str]] | None:
    """The tokens of a text, what the grammar calls each and its word; None where
    something else stands in it."""
    found = []
    for word in WORDS.findall(text):
        spelled = word.decode("latin-1")
        if ATOMS.fullmatch(word):
            found.append(("atom", spelled))
        elif spelled in TOKENS:
            found.append((spelled, spelled))
        else:
            return None
    return found


def reduced(values: list[str | Tree]) -> Tree:
    """The tree for the symbols of a production: its word with the operands, or
    the one operand where it has no word."""
    words = [value for value in values if isinstance(value, str)]
    operands = [value for value in values if not isinstance(value, str)]
    told = [word for word in words if word not in SILENT]
    return (*told, *operands) if told else operands[0]


def tree(text: bytes) -> Tree | None:
    """The reading of a text; None where the grammar does not derive it."""
    found = tokens(text)
    if found is None:
        return None
    states, values = [BEGIN], []
    for token, word in [*found, (END, END)]:
        while isinstance(action := TABLE.get((states[-1], token)), tuple):
            name, its = action
            if name == "text":
                return values[0]
            whole = reduced(values[-len(its) :])
            del states[-len(its) :], values[-len(its) :]
            states.append(TABLE[states[-1], name])
            values.append(whole)
        if action is None:
            return None
        states.append(action)
        values.append(word)
    raise AssertionError("nothing stands behind the end")


# --------------------------------------------------------------------------
# The lines
# --------------------------------------------------------------------------


def rewritten(tree: Tree) -> Tree:
    """ "`f | g` becomes not(not f and not g), and `f => g` becomes not(f and
    not g)." """
    if len(tree) == 1:
        return tree
    word, f = tree[0], rewritten(tree[1])
    if len(tree) == 2:
        return word, f
    g = rewritten(tree[2])
    if word == "|":
        return "!", ("&", ("!", f), ("!", g))
    if word == "=>":
        return "!", ("&", f, ("!", g))
    return word, f, g


def lines(tree: Tree) -> list[Rule]:
    """ "In the rule so rewritten, all of a left operand's lines come first, then
    the right's, then the operator's own, and a line equal to an earlier one is
    not written again." """
    found: dict[Rule, int] = {}

    def number(tree: Tree) -> int:
        if len(tree) == 1:
            line = Rule(ATOM, int(tree[0][1:]), 0)
        else:
            a = number(tree[1])
            b = number(tree[2]) if len(tree) == 3 else 0
            line = Rule(KINDS[tree[0]], a, b)
        return found.setdefault(line, len(found))

    number(rewritten(tree))
    return list(found)


@call(3)
def rule(text: bytes, buffer: bytes) -> Answer:
    """Questions 21 to 23.  The answer is the number of lines."""
    ask(len(buffer) == ROOM, 21)
    ask(len(text) <= LONGEST, 22)
    reading = tree(text)
    ask(reading is not None, 22)
    found = lines(reading)
    ask(len(found) <= MOST, 23)
    start = written(found)
    return [0, 0, len(found)], start + buffer[len(start) :]


# --------------------------------------------------------------------------
# CTL truth of a tree
# --------------------------------------------------------------------------


def holding(job: Job, tree: Tree) -> set[int]:
    """The states of the uncut structure where the rule holds."""
    every = set(range(job.sizes.states))
    word, *operands = tree

    def before(goal: set[int]) -> set[int]:
        """The states with all successors, or with some, in the goal."""
        all_or_some = all if word[0] == "A" else any
        return {s for s in every if all_or_some(t in goal for t in job.successors[s])}

    if not operands:
        return {s for s in every if job.label[s] >> int(word[1:]) & 1}
    f, *others = (holding(job, operand) for operand in operands)
    if word == "!":
        return every - f
    if word in ("AX", "EX"):
        return before(f)
    if word in ("AG", "EG"):
        found = f  # what holds for 0, 1, .. steps
        for _ in every:
            found = f & before(found)
        return found
    (g,) = others
    if word == "&":
        return f & g
    if word == "|":
        return f | g
    if word == "=>":
        return every - f | g
    found = g  # what holds within 0, 1, .. steps
    for _ in every:
        found = found | f & before(found)
    return found


# --------------------------------------------------------------------------
# The program
# --------------------------------------------------------------------------

MOST_READ = LONGEST + 2
"""The bytes that `rule` reads: enough to find any longer text too long, a final
byte 10 or not."""


def printed(data: bytes) -> bytes:
    """What `rule` prints for this input: number and lines, then the lines."""
    text = data[:MOST_READ].removesuffix(b"\n")
    (number, _, count), buffer = rule(text, bytes(ROOM))
    return written_line((number, count)) + buffer[: 16 * count]


if __name__ == "__main__":
    sys.stdout.buffer.write(printed(sys.stdin.buffer.read(MOST_READ)))
