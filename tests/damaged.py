"""Damaged job texts: each of questions 1 to 8 failing, and texts where only the
model says what fails.
"""

from __future__ import annotations

import random
from dataclasses import dataclass, replace
from typing import Iterator

import checker
from checker import ALL_ALONG, ATOM, AX, EX, NOT, WITH_B
from generate import Line, Picture, written


@dataclass
class Damage:
    """A text with the number and the line that its reading must give."""

    name: str
    number: int
    line: int
    text: bytes


BAD_FIELDS = [
    b"     ", b"00000", b" 0000", b"   01", b"    -", b"   +1", b"   -1", b"1    ",
    b" 1  1", b"   1 ", b"\t   1", b"   1\r", b"    /", b"    :", b"   \xb2 ",
    b"   \x001", b"  1.0", b"  1_0", b"  1e1", b"\n   1", b"    a",
]  # fmt: skip
"""Fields that are not well-formed."""

COMPUTED = 500
"""Damaged texts of up to so many bytes are cases of compare.py: those with 30,000
bytes more are dear to the prover, which goes over every byte."""

LARGEST = checker.Sizes(256, 2048, 32, 8)
"""The numbers of line 1 at their greatest."""


def with_field(text: bytes, sizes: checker.Sizes, at: int, n: int, new: bytes) -> bytes:
    """Field n of line `at` replaced."""
    start = checker.place(sizes, at)[0] + 5 * n
    return text[:start] + new + text[start + 5 :]


def first_middle_last(first: int, count: int) -> list[int]:
    """The lines at which a question about lines is made to fail."""
    return sorted({first, first + count // 2, first + count - 1})


def sorts(sizes: checker.Sizes) -> list[tuple[int, int, int]]:
    """State, edge and subformula lines: the first, how many, their fields."""
    first_edge = 2 + sizes.states
    first_rule = first_edge + sizes.edges
    return [
        (2, sizes.states, 2),
        (first_edge, sizes.edges, 2),
        (first_rule, sizes.formulas, 3),
    ]


def damages(rng: random.Random, job: Picture) -> Iterator[Damage]:
    """Each of questions 1 to 8 failing at its first, a middle and its last
    line, in every way that the question knows."""
    text = job.text()
    sizes = checker.Sizes(*job.lines()[0])
    states, edges, formulas, nodes = sizes
    first_edge, first_rule = 2 + states, 2 + states + edges
    last = first_rule + formulas - 1

    def put(name: str, number: int, at: int, n: int, value: int | bytes) -> Damage:
        new = value if isinstance(value, bytes) else b"%5d" % value
        return Damage(name, number, at, with_field(text, sizes, at, n, new))

    def ended(number: int, at: int, byte: int) -> Damage:
        start, count = checker.place(sizes, at)
        end = start + 5 * count
        broken = text[:end] + bytes([byte]) + text[end + 1 :]
        return Damage(f"line {at} ends with {byte}", number, at, broken)

    # 1
    yield Damage("empty", 1, 1, b"")
    for length in (1, 5, 10, 19, 20):
        yield Damage(f"{length} bytes", 1, 1, text[:length])
    for n in range(4):
        yield put("line 1", 1, 1, n, rng.choice(BAD_FIELDS))
    for byte in (0, 13, 32, 48):
        yield ended(1, 1, byte)
    noise = bytes(rng.randrange(256) for _ in range(len(text)))
    yield Damage("noise", 1, 1, noise[:20] + b"!" + noise[21:])

    # 2
    for n, most in enumerate(LARGEST):
        for value in (0, most + 1, 99_999):
            yield put("sizes", 2, 1, n, value)

    # 3
    yield Damage("line 1 alone", 3, 1, text[:21])
    yield Damage("one byte short", 3, 1, text[:-1])
    yield Damage("cut", 3, 1, text[: rng.randrange(21, len(text))])
    for more in (b"\n", b"0", b"    0    0\n", bytes(30_000)):
        yield Damage(f"{len(more)} more", 3, 1, text + more)
    for n, most in enumerate(LARGEST[:3]):
        for value in (sizes[n] - 1, sizes[n] + 1):
            if 1 <= value <= most:
                yield put("other size", 3, 1, n, value)
        if sizes[n] != most:
            yield put("the greatest size", 3, 1, n, most)

    # 4
    for first, count, columns in sorts(sizes):
        for at in first_middle_last(first, count):
            for n in range(columns):
                yield put("field", 4, at, n, rng.choice(BAD_FIELDS))
            yield ended(4, at, rng.choice([0, 9, 11, 13, 32, 48, 255]))
    for bad in BAD_FIELDS:
        yield put("field", 4, rng.randint(2, last), rng.randrange(2), bad)

    # 5
    for at in first_middle_last(2, states):
        yield put("owner", 5, at, 0, nodes)
        yield put("owner", 5, at, 0, rng.choice([nodes + 1, 255, 256, 99_999]))
        yield put("label", 5, at, 1, 65_536)
        yield put("label", 5, at, 1, rng.choice([65_537, 70_000, 99_999]))

    # 6
    for at in first_middle_last(first_edge, edges):
        yield put("from", 6, at, 0, states)
        yield put("from", 6, at, 0, rng.choice([states + 1, 256, 65_536, 99_999]))
        yield put("to", 6, at, 1, states)
        yield put("to", 6, at, 1, rng.choice([states + 1, 256, 65_536, 99_999]))
        if at > first_edge:
            before, here = job.edges[at - 1 - first_edge], job.edges[at - first_edge]
            lines = job.lines()
            lines[at - 1] = before
            yield Damage("pair again", 6, at, written(lines))
            lines[at - 1], lines[at - 2] = before, here
            yield Damage("pairs swapped", 6, at, written(lines))

    # 7
    for at in first_middle_last(2, states):
        left = [(s, t) for s, t in job.edges if s != at - 2]
        if left:
            yield Damage("no edge out", 7, at, replace(job, edges=left).text())
    if states >= 3:
        left = [(s, t) for s, t in job.edges if s not in (1, 2)]
        yield Damage("two without", 7, 3, replace(job, edges=left).text())

    # 8
    for at in first_middle_last(first_rule, formulas):
        k = at - first_rule
        for line in bad_rules(rng, k):
            lines = job.lines()
            lines[at - 1] = line
            yield Damage(f"rule {line} at {k}", 8, at, written(lines))


def bad_rules(rng: random.Random, k: int) -> list[Line]:
    """Lines that question 8 turns away at subformula k."""
    less = rng.randrange(k) if k else 0
    kinds = (0, 10, 11, 255, 256, 257, 264, 265, 99_999)
    wrong: list[Line] = [(kind, 0, 0) for kind in kinds]
    wrong += [(ATOM, 16, 0), (ATOM, 99_999, 0), (ATOM, 0, 1), (ATOM, 15, 99_999)]
    for kind in (NOT, AX, EX, *ALL_ALONG):
        wrong += [(kind, k, 0), (kind, k + 1, 0), (kind, less, 1), (kind, 99_999, 0)]
    for kind in WITH_B:
        wrong += [(kind, k, less), (kind, less, k), (kind, less, 99_999)]
    return wrong


def malformed(rng: random.Random, job: Picture) -> Iterator[Damage]:
    """Every ill-formed field in each field of line 1 and of the first, a middle
    and the last line of each sort, and every wrong byte in one of them."""
    text = job.text()
    sizes = checker.Sizes(*job.lines()[0])
    places = [(1, n) for n in range(4)]
    for first, count, columns in sorts(sizes):
        for at in first_middle_last(first, count):
            places += [(at, n) for n in range(columns)]

    def put(at: int, n: int, bad: bytes) -> Damage:
        broken = with_field(text, sizes, at, n, bad)
        return Damage(f"field {n} is {bad!r}", 1 if at == 1 else 4, at, broken)

    for at, n in places:
        for bad in BAD_FIELDS:
            yield put(at, n, bad)
    for byte in sorted(set(range(256)).difference(b" 0123456789")):
        yield put(*rng.choice(places), b"    %c" % byte)


def flipped(text: bytes, at: int, bit: int) -> bytes:
    """The text with one bit turned over."""
    return text[:at] + bytes([text[at] ^ 1 << bit]) + text[at + 1 :]


def flips(rng: random.Random, text: bytes, count: int) -> Iterator[bytes]:
    """Texts with any one bit turned over."""
    for _ in range(count):
        yield flipped(text, rng.randrange(len(text)), rng.randrange(8))


def scribbles(rng: random.Random, job: Picture, count: int) -> Iterator[bytes]:
    """Texts with several fields changed, so that the order of the questions
    and of the lines decides what is reported."""
    sizes = checker.Sizes(*job.lines()[0])
    numbers = [0, 1, 2, 7, 8, 9, 10, 15, 16, 255, 256, 65_535, 65_536, 99_999]
    for _ in range(count):
        text = job.text()
        for _ in range(rng.randint(2, 4)):
            at = rng.randint(2, len(job.lines()))
            n = rng.randrange(checker.place(sizes, at)[1])
            bad = rng.randrange(8) == 0
            new = rng.choice(BAD_FIELDS) if bad else b"%5d" % rng.choice(numbers)
            text = with_field(text, sizes, at, n, new)
        yield text


def noise(rng: random.Random, count: int) -> Iterator[bytes]:
    """Any bytes, bytes that a job may have, and a good line 1 with a body of
    the right length: of any fields, and of lines of any small numbers."""
    for _ in range(count):
        yield rng.randbytes(rng.randrange(200))
        yield bytes(rng.choices(b" 0123456789\n", k=rng.randrange(200)))
        states, edges, formulas, nodes = (rng.randint(1, 4) for _ in range(4))
        first = written([(states, edges, formulas, nodes)])
        length = 11 * (states + edges) + 16 * formulas
        yield first + bytes(rng.choices(b"  01\n", k=length))
        yield first + written(
            [tuple(rng.choices(range(4), k=2)) for _ in range(states + edges)]
            + [tuple(rng.choices(range(11), k=3)) for _ in range(formulas)]
        )


def spoilt(rng: random.Random, job: Picture) -> bytes:
    """One damaged text (or, by a flip, perhaps a valid one)."""
    if rng.randrange(4) == 0:
        return next(flips(rng, job.text(), 1))
    found = list(damages(rng, job))
    number = rng.choice(sorted({damage.number for damage in found}))
    return rng.choice([damage for damage in found if damage.number == number]).text
