"""Seeded rule texts: rules spelled in many ways, every short text, damaged ones,
those at the limits, and the cases on which the definitions are computed.

What is told with a text (`Told`) is worked out by hand, not by the model.
"""

from __future__ import annotations

import itertools
import random
from typing import Callable, Iterator, NamedTuple, TypeVar

import damaged
from rules import LONGEST, ROOM, Tree

Whole = TypeVar("Whole", bytes, list[str])

STRENGTH = {"!": 1, "AX": 1, "EX": 1, "EG": 1, "AG": 1, "&": 2, "|": 3, "=>": 4}
"""How weakly a word binds; atoms and closed forms, 0, bind tightest."""

TO_THE_RIGHT = ("=>",)
"""The words that group to the right."""

PREFIXES = [word for word, strength in STRENGTH.items() if strength == 1]
BETWEEN = [word for word, strength in STRENGTH.items() if strength > 1]
UNTILS = ["A", "E"]
ATOMS = [f"p{j}" for j in range(16)]
TOKENS = [*ATOMS, *STRENGTH, *UNTILS, "U", "[", "]", "(", ")"]
"""All 31."""


class Told(NamedTuple):
    """A text with the number of its answer and the number of lines."""

    text: bytes
    number: int
    lines: int = 0


# --------------------------------------------------------------------------
# Rules, spelled
# --------------------------------------------------------------------------


def strengths(word: str) -> tuple[int, int]:
    """The weakest binding that either operand of `&`, `|` or `=>` may have
    without brackets."""
    weakest = STRENGTH[word]
    if word in TO_THE_RIGHT:
        return weakest - 1, weakest
    return weakest, weakest - 1


def drawn_tree(rng: random.Random, size: int, atoms: list[str]) -> Tree:
    """Any rule of so many words, atoms among them."""
    if size == 1:
        return (rng.choice(atoms),)
    if size == 2 or rng.randrange(3) == 0:
        return rng.choice(PREFIXES), drawn_tree(rng, size - 1, atoms)
    left = rng.randint(1, size - 2)
    word = rng.choice([*BETWEEN, *BETWEEN, *UNTILS])
    f, g = drawn_tree(rng, left, atoms), drawn_tree(rng, size - 1 - left, atoms)
    return word, f, g


def some_tree(rng: random.Random, most: int = 24) -> Tree:
    """A rule of at most so many words, over few atoms or over all."""
    atoms = rng.choice([["p0"], ["p0", "p1"], ["p0", "p1", "p10", "p15"], ATOMS])
    return drawn_tree(rng, rng.randint(1, most), atoms)


def words(rng: random.Random, tree: Tree, weakest: int, needless: float) -> list[str]:
    """The tokens of a rule that stands where nothing weaker may: in brackets if
    it has to, and with this likelihood if it has not."""
    if STRENGTH.get(tree[0], 0) > weakest or rng.random() < needless:
        return ["(", *words(rng, tree, 4, needless), ")"]
    word, *operands = tree
    if not operands:
        return [word]
    if word in PREFIXES:
        return [word, *words(rng, operands[0], 1, needless)]
    left, right = strengths(word) if word in BETWEEN else (4, 4)
    f = words(rng, operands[0], left, needless)
    g = words(rng, operands[1], right, needless)
    return [*f, word, *g] if word in BETWEEN else [word, "[", *f, "U", *g, "]"]


def joined(tokens: list[str], more: Callable[[], int]) -> bytes:
    """The tokens with a space where one must stand, and more of them before,
    between and behind."""
    text = " " * more()
    for token in tokens:
        must = text[-1:].isalnum() and token[0].isalnum()
        text += " " * must + token + " " * more()
    return text.encode()


def close(tokens: list[str]) -> bytes:
    """The tokens with no space but where one must stand."""
    return joined(tokens, lambda: 0)


def scattered(rng: random.Random, tokens: list[str]) -> bytes:
    """The tokens with any spaces."""
    return joined(tokens, lambda: rng.choice([0, 0, 1, 1, 2, 7]))


def spaced(tokens: list[str]) -> bytes:
    """The tokens with one space between any two."""
    return " ".join(tokens).encode()


def spellings(rng: random.Random, tree: Tree) -> Iterator[bytes]:
    """A rule with the brackets that it needs and close together, with needless
    ones and many spaces, and with some and one space everywhere."""
    yield close(words(rng, tree, 4, 0))
    yield scattered(rng, words(rng, tree, 4, 0.3))
    yield spaced(words(rng, tree, 4, 0.1))


def spelled(rng: random.Random, tree: Tree) -> bytes:
    """One of these."""
    return rng.choice(list(spellings(rng, tree)))


ACCEPTED = [
    Told(b"p0", 0, 1),
    Told(b"p15", 0, 1),
    Told(b"  p10  ", 0, 1),
    Told(b"(((p1)))", 0, 1),
    Told(b"!p0", 0, 2),
    Told(b"!!p0", 0, 3),
    Told(b"AX!p0", 0, 3),
    Told(b"!AX p0", 0, 3),
    Told(b"EX(p0)", 0, 2),
    Told(b"AX AX EX p0", 0, 4),
    Told(b"p0&p1", 0, 3),
    Told(b"p0 & p0", 0, 2),
    Told(b"p0|p1", 0, 6),
    Told(b"p0|p0", 0, 4),
    Told(b"p0=>p1", 0, 5),
    Told(b"p0 => p0", 0, 4),
    Told(b"p0&p1|p2", 0, 8),
    Told(b"p0|p1=>p2", 0, 10),
    Told(b"!p0&p1", 0, 4),
    Told(b"!(p0|p1)", 0, 7),
    Told(b"A[p0 U p1]", 0, 3),
    Told(b"A [ p0 U p1 ]", 0, 3),
    Told(b"A[(p0)U(p1)]", 0, 3),
    Told(b"E[!p0 U!p1]", 0, 5),
    Told(b"A[p0 => p1 U p2 | p3]", 0, 12),
    Told(b"A[E[p0 U p1]U A[p1 U p0]]", 0, 5),
    Told(b"AX A[p0 U p0]", 0, 3),
    Told(b"(p0=>p1)&(p0=>p1)", 0, 6),
    Told(b"EG p0", 0, 2),
    Told(b"AG p0", 0, 2),
    Told(b"EG!p0", 0, 3),
    Told(b"!EG p0", 0, 3),
    Told(b"AG(p0)", 0, 2),
    Told(b"AG ( p0 )", 0, 2),
    Told(b"AG EG p0", 0, 3),
    Told(b"EG EG EG p0", 0, 4),
    Told(b"AX AG EX EG p0", 0, 5),
    Told(b"AG p0&p1", 0, 4),
    Told(b"AG(p0&p1)", 0, 4),
    Told(b"EG p0 & EG p0", 0, 3),
    Told(b"EG p0|AG p0", 0, 7),
    Told(b"AG(p0=>EG p0)", 0, 6),
    Told(b"AG p0=>EG p0", 0, 6),
    Told(b"A[EG p0 U AG p1]", 0, 5),
    Told(b"EG A[p0 U p1]", 0, 4),
    Told(b"AG E[!p0 U p0]", 0, 4),
]
"""Texts in the grammar."""


# --------------------------------------------------------------------------
# Every short text
# --------------------------------------------------------------------------

FEW = ["p0", "p15", "!", "AX", "EG", "&", "|", "=>", "A", "E", "U", "[", "]", "(", ")"]
"""Tokens that stand for all."""


def short(count: int) -> Iterator[list[str]]:
    """Every list of so many of the few tokens."""
    for tokens in itertools.product(FEW, repeat=count):
        yield list(tokens)


def together(tokens: list[str]) -> bytes:
    """The tokens without any space, be there a need or not."""
    return "".join(tokens).encode()


# --------------------------------------------------------------------------
# Damaged texts
# --------------------------------------------------------------------------

REFUSED = [
    # Nothing, and parts of rules.
    b"", b" ", b"!", b"AX", b"EG", b"AG", b"&", b"=>", b"A", b"U", b"()", b"A[]",
    b"A[U]", b"AG EG", b"AG &", b"AG()", b"p0 AG", b"p0 EG p1", b"AG => p0",
    b"p0 &", b"& p0", b"p0 | | p1", b"p0 => => p1", b"p0 => !", b"p0 ! p1", b"p0 !",
    b"A[p0 U]", b"A[U p0]", b"A[p0]", b"A[p0 p1]", b"A p0", b"A[p0 U p1", b"[p0]",
    b"[p0 U p1]", b"p0 U p1", b"(p0 U p1)", b"A(p0 U p1)", b"A[(p0 U p1)]",
    b"A[p0 U p1 U p2]", b"A[p0 U A[p1 U p2]", b"A[[p0 U p1]]", b"AX[p0 U p1]",
    b"! A", b"E[p0 U p1]]", b"A[p0, p1]",
    # Brackets.
    b"(p0", b"p0)", b"((p0)", b"(p0))", b")p0(", b"(p0]", b"[p0)", b"(p0)(p1)",
    b"(p0) p1", b"p0 (p1)", b"A[p0 U p1)", b"A(p0 U p1]", b"A[(p0 U p1])", b"{p0}",
    # Letters and digits run together, or torn apart.
    b"AXp0", b"EXp0", b"AXAX p0", b"AX AXp0", b"A[p0Up1]", b"A[p0U p1]",
    b"A[p0 Up1]", b"A[(p0)Up1]", b"p0p1", b"p0 p1", b"A X p0", b"E X p0", b"p 0",
    b"p1 5", b"p0AX", b"!pAX", b"AEX p0", b"AAX p0", b"AXEX p0", b"AU[p0 U p1]",
    b"p0U", b"0", b"p", b"p0 & 1", b"AX0", b"EGp0", b"AGp0", b"EGEG p0", b"AGEG p0",
    b"AG EGp0", b"AXEG p0", b"AXG p0", b"AEG p0", b"AGG p0", b"E G p0", b"A G p0",
    b"EG0", b"p0EG", b"AGU p0", b"A[EGp0 U p1]", b"A[p0 UEG p1]",
    # Operators torn apart, and those of other languages.
    b"p0 = > p1", b"p0 = p1", b"p0 > p1", b"p0 >= p1", b"p0 ==> p1", b"p0 =>> p1",
    b"p0 -> p1", b"p0 <=> p1", b"p0 && p1", b"p0 || p1", b"~p0", b"p0 ^ p1",
    b"p0 + p1", b"p0 * p1", b"not p0", b"p0 and p1", b"p0 or p1", b"true", b"p0;",
    b"p0.", b"p0#", b"'p0'", b'"p0"', b"p0=>=>p1", b"p0&=>p1", b"p0!=p1",
    # Temporal words that rule text does not have.
    b"AF p0", b"EF p0", b"F p0", b"G p0", b"X p0", b"AXX p0", b"A[p0 R p1]",
    b"A[p0 W p1]", b"A[G p0]", b"AX[p0]", b"A X[p0]", b"AG[p0]", b"EG[p0 U p1]",
    b"E p0", b"EE p0", b"GE p0", b"GA p0",
    # Atoms that are none.
    b"p16", b"p17", b"p20", b"p99", b"p150", b"p256", b"p65536", b"p00", b"p01",
    b"p015", b"p000", b"p-1", b"p+1", b"p1.0", b"p1_0", b"p0x1", b"pp0", b"q0",
    b"p10p", b"p1p1", b"p\xb2", b"p\xd9\xa1",
    # Case.
    b"P0", b"ax p0", b"Ax p0", b"aX p0", b"ex p0", b"a[p0 U p1]", b"A[p0 u p1]",
    b"e[p0 U p1]", b"ag p0", b"Ag p0", b"aG p0", b"eg p0", b"Eg p0",
    # Bytes that are no spaces, and others that do not belong.
    b"\tp0", b"p0\t", b"p0\t&\tp1", b"AX\tp0", b"p0\r", b"p0 &\r p1", b"p0\n",
    b"p0\r\n", b"p0 &\n p1", b"AX\np0", b"\np0", b"\x0bp0", b"p0\x0c", b"\x00",
    b"p0\x00", b"p0 \x00", b"\x00p0", b"p0 &\x00 p1", b"AX\xa0p0", b"\xa0p0",
    b"p0\x80", b"\xefp0", b"\xef\xbb\xbfp0", b"\xf00", b"p\xb0", b"p0\xa0",
    b"p0 \xa6 p1", b"p0 \xe2\x88\xa7 p1", b"\xac p0", b"\xa1p0", b"p0 \xbd\xbe p1",
    b"\xffp0", b"p0\xff",
    # Words by which the grammar may be told.
    b"rule", b"atom", b"text", b"AX prefixed", b"A[rule U rule]", b"f", b"(f)",
]  # fmt: skip
"""Texts that are not in the grammar."""


def changed(rng: random.Random, whole: Whole, new: Whole) -> Whole:
    """One of the text's bytes, or of its tokens, deleted, exchanged with the
    next or replaced by the new one; or that one put in."""
    at = rng.randrange(len(whole) + 1)
    rest = whole[at:]
    swapped = rest[1:2] + rest[:1] + rest[2:]
    return whole[:at] + rng.choice([rest[1:], swapped, new + rest[1:], new + rest])


LETTERS = b" pAEXGU01!&|=>[]()"
"""The bytes of tokens, most of them, and the space."""


def edited(rng: random.Random, text: bytes) -> bytes:
    """The text with a byte changed."""
    some = rng.choice([*LETTERS, rng.randrange(256)])
    return changed(rng, text, bytes([some]))


def spoilt(rng: random.Random, tree: Tree) -> Iterator[bytes]:
    """A rule's text with bytes changed, with tokens changed and with a bit
    turned over; mostly not in the grammar."""
    text = spelled(rng, tree)
    yield edited(rng, text)
    yield edited(rng, edited(rng, text))
    yield close(changed(rng, words(rng, tree, 4, 0.1), [rng.choice(TOKENS)]))
    yield from damaged.flips(rng, text, 1)


def noise(rng: random.Random, count: int) -> Iterator[bytes]:
    """Any bytes, bytes of tokens, and any tokens."""
    for _ in range(count):
        yield rng.randbytes(rng.randrange(40))
        yield bytes(rng.choices(b" " + LETTERS, k=rng.randrange(12)))
        yield scattered(rng, rng.choices(TOKENS, k=rng.randrange(9)))


# --------------------------------------------------------------------------
# The limits
# --------------------------------------------------------------------------


def chain(word: str, count: int) -> bytes:
    """So many atoms with the word between them."""
    return word.join(["p0"] * count).encode()


def nested(before: str, behind: str, count: int) -> bytes:
    """An atom inside so many of these."""
    return (before * count + "p0" + behind * count).encode()


def doubled(count: int) -> bytes:
    """An atom joined with itself, this with itself, and so on: one more line
    each time, and twice the text."""
    text = b"p0"
    for _ in range(count):
        text = b"(" + text + b"&" + text + b")"
    return text


def filled(text: bytes, length: int) -> bytes:
    """The text with spaces behind it up to a length."""
    return text.ljust(length)


def by_lines() -> Iterator[Told]:
    """31 lines and up, in every way to come by them.  Of these texts none has
    more bytes than it may."""
    for word, count, lines in (
        ("&", 31, 31), ("&", 32, 32), ("&", 33, 33), ("&", 170, 170),
        ("|", 11, 31), ("|", 12, 34), ("|", 170, 508),
        ("=>", 11, 31), ("=>", 12, 34), ("=>", 128, 382),
    ):  # fmt: skip
        yield limited(chain(word, count), lines)
    yield limited(b"!(" + chain("|", 11) + b")", 32)
    yield limited(b"!!(" + chain("|", 11) + b")", 33)
    yield limited(b"AX(" + chain("=>", 11) + b")", 32)
    yield limited(b"p0&(" + chain("=>", 11) + b")&p0", 33)
    for before, behind, each, most in (
        ("!", "", 1, 510), ("AX ", "", 1, 170), ("EX(", ")", 1, 127),
        ("EG ", "", 1, 170), ("AG(", ")", 1, 127),
        ("p0&(", ")", 1, 102), ("(", "=>p0)", 2, 85), ("A[p0 U ", "]", 1, 63),
        ("E[", " U p0]", 1, 63),
    ):  # fmt: skip
        first = 2 if each == 2 else 1  # p0=>p0 has its not besides
        for count in (31 // each - 1, 31 // each, 31 // each + 1, most // 2, most):
            yield limited(nested(before, behind, count), count * each + first)
    atoms = "&".join(ATOMS).encode()
    for count in range(3):
        text, lines = b"!" * count + b"(" + atoms + b")", 31 + count
        yield limited(text, lines)
        yield limited(b"(" + text + b")&(" + text + b")", lines + 1)
        yield limited(b"A[" + text + b" U " + text + b"]", lines + 1)
    yield limited(doubled(6), 7)
    yield limited(b"!" * 25 + doubled(6), 32)
    yield limited(b"!" * 26 + doubled(6), 33)


def limited(text: bytes, lines: int) -> Told:
    """A text of so many lines."""
    assert len(text) <= LONGEST
    return Told(text, 0, lines) if lines <= 32 else Told(text, 23)


def by_bytes() -> Iterator[Told]:
    """Texts of the greatest length and just over, by what they say and by
    spaces; and far over, where a length that is cut would be small."""
    most = LONGEST
    yield Told(nested("(", ")", 255), 0, 1)
    yield Told(nested("(", ")", 255) + b" ", 22)
    yield Told(nested("(", ")", 255).replace(b"p0", b"p10"), 22)
    yield Told(nested("(", ")", 256), 22)
    yield Told(nested("(", ")", 254) + b"  ", 0, 1)
    yield Told(nested("(", ")", 255)[1:], 22)
    yield Told(nested("(", ")", 255)[:-1], 22)
    yield Told(b"(" * most, 22)
    yield Told(b"(" * (most - 2) + b"p0", 22)
    for text, lines in ((b"p0", 1), (b"AX p0", 2), (chain("&", 32), 32), (doubled(5), 6)):
        yield Told(filled(text, most), 0, lines)
        yield Told(text.rjust(most), 0, lines)
        yield Told(text.center(most), 0, lines)
        yield Told(filled(text, most + 1), 22)
        yield Told(text.rjust(most + 1), 22)
        yield Told(filled(text, most + 2), 22)
    yield Told(b"AX" + b" " * (most - 4) + b"p0", 0, 2)
    yield Told(b"AX" + b" " * (most - 3) + b"p0", 22)
    yield Told(b"p0" + b" " * (most - 5) + b"&p0", 0, 2)
    yield Told(b" " * most, 22)
    yield Told(b" " * (most + 1), 22)
    for length in (most + 256, 2**16 + 2, 2**16 + most, 100_000):
        yield Told(filled(b"p0", length), 22)


def by_both() -> Iterator[Told]:
    """Over 32 lines and wrong besides: 22 is asked first."""
    for text in (chain("&", 33), b"!" * 32 + b"p0", chain("=>", 100), b"!" * 500 + b"p0"):
        yield Told(text, 23)
        yield Told(filled(text, LONGEST), 23)
        yield Told(filled(text, LONGEST + 1), 22)
        for end in (b")", b"&", b" p0", b"=", b"\t", b"\n", b"\0", b"!", b"]", b"6"):
            yield Told(text + end, 22)
        for start in (b"(", b"&", b"p0 ", b"\t", b"\0"):
            yield Told(start + text, 22)
    yield Told(b"!" * LONGEST, 22)
    yield Told(b"!" * 511 + b"p", 22)
    yield Told(b"!" * 511 + b"p0", 22)


def limits() -> Iterator[Told]:
    """All of these."""
    yield from by_lines()
    yield from by_bytes()
    yield from by_both()


# --------------------------------------------------------------------------
# The cases on which the definitions are computed
# --------------------------------------------------------------------------

SHOWING = [
    # Atoms, spaces and brackets.
    b"p0", b"p9", b"p10", b"p15", b" p0", b"p1 ", b"  p2  ", b"(p0)", b"( (p3) )",
    # Prefixes, and what they take.
    b"!p0", b"! p0", b"!!p0", b"!!!p0", b"AX p0", b"EX p0", b"AX!p0", b"!AX p0",
    b"AX AX p0", b"EX EX(p0)", b"!p0&p1", b"!(p0&p1)", b"p0&!p1", b"AX p0&p1",
    b"p0 & EX p1", b"EX p0|p1", b"!p0=>p1", b"EG p0", b"AG p0", b"EG!p0", b"!AG p0",
    b"AG(p0)", b"AG EG p0", b"EG EG p0", b"EG p0&p1", b"p0&AG p1", b"AG p0|p1",
    b"EG p0=>AG p0",
    # One operator, and how it groups.
    b"p0&p1", b"p1 & p0", b"p0&p0", b"p0|p1", b"p1|p0", b"p0|p0", b"p0=>p1",
    b"p0 => p0", b"p0&p1&p2", b"p0&(p1&p2)", b"p0|p1|p2", b"p0|(p1|p2)",
    b"p0=>p1=>p2", b"(p0=>p1)=>p2",
    # Two, and which binds tighter.
    b"p0&p1|p2", b"p0|p1&p2", b"(p0|p1)&p2", b"p0|p1=>p2", b"p0=>p1|p2",
    b"p0=>p1&p2", b"p0&p1=>p2",
    # Untils.
    b"A[p0 U p1]", b"E[p1 U p0]", b"E [ p0 U p0 ]", b"A[(p0)U(p1)]", b"A[!p0 U!p1]",
    b"A[p0=>p1 U p2|p3]", b"E[p0=>p1 U p2|p3]", b"A[p0 U E[p0 U p1]]",
    b"E[A[p0 U p1]U p1]", b"!E[p0=>p0 U!p0]",
    # Equal lines.
    b"!p0&!p0", b"p0&p1|p0&p1", b"(p0&p1)&(p1&p0)", b"p1&AX p0&(p1&AX p0)",
    b"!p0|p0", b"(p0|p1)|!p0", b"p0&p1|p0&p2", b"AX p0|EX p0", b"EG p0&EG p0",
    b"AG p1|AG p1", b"EG p0|AG p0",
    # Not in the grammar.
    b"", b"  ", b"!", b"p0&", b"|p0", b"p0 p1", b"p0&&p1", b"p0!", b"()", b"(p0",
    b"p0)", b"(p0]", b"[p0]", b"(p0 U p1)", b"p0 U p1", b"A(p0 U p1)", b"A[p0 U p1",
    b"A[p0 U p1 U p2]", b"A[p0]", b"A p0", b"AF p0", b"EF p0", b"AG", b"EG[p0]",
    b"EG[p0 U p1]", b"EGp0", b"AGp0", b"EGEG p0", b"AG AGp0", b"E G p0", b"A G p0",
    b"AXp0", b"EXp0", b"AX AXp0", b"A[p0Up1]", b"A[p0U p1]", b"A[p0 Up1]", b"A X p0",
    b"p 0", b"p0 = > p1", b"p0->p1", b"p0=p1", b"p", b"p16", b"p00", b"p01", b"P0",
    b"ax p0", b"A[p0 u p1]", b"AX\tp0", b"p0\t", b"p0&\np1", b"p0\n", b"p0\r", b"\0", b"p0\0",
    b"p0\0&p1", b"\xa0p0", b"AX\xa0p0", b"\xf0\xb0",
    # The limits.
    filled(b"p0", LONGEST), filled(b"p0", LONGEST + 1), b"!" * 31 + b"p0",
    b"!" * 32 + b"p0", chain("&", 17), chain("|", 12), nested("A[p0 U ", "]", 31),
    chain("&", 33), b"!" * 32 + b"p0)", b"!" * 32 + b"p0 p0", b"!" * 33,
    filled(b"!" * 32 + b"p0", LONGEST + 1), nested("(", ")", 255), nested("!", "", 510),
]  # fmt: skip
"""Texts that together notice every wrong reading of rule text in mutants.py."""

EVEN = bytes([7]) * ROOM
"""The buffer lent with each of them."""

UNEVEN = bytes(range(256)) * 2
"""Lent besides where it matters which byte stays."""


def chosen() -> Iterator[tuple[bytes, bytes]]:
    """Texts and the buffers lent with them."""
    for text in SHOWING:
        yield text, EVEN
    most, over = b"!" * 31 + b"p0", b"!" * 32 + b"p0"
    for text in (b"p0", b"A[p0 U p1]", most, over, b"p0&p1)"):
        yield text, UNEVEN
    for length in (0, 16, ROOM - 1, ROOM + 1, 2 * ROOM):
        yield b"p0", EVEN[:1] * length
    for text in (b"p", over, filled(b"p0", LONGEST + 1)):
        yield text, EVEN[1:]
