"""Cases of the page: a job, a table, a node and the buffer that is lent.  Those on
which the definitions are computed, and drawn ones.  And pages told by hand.
"""

from __future__ import annotations

import random
from dataclasses import replace
from typing import Iterator, NamedTuple

import checker
import damaged
import generate
import tables
from checker import AND, ATOM, AU, AX, EG, EMPTY, EU, NOT
from generate import JOB_V, Picture
from tables import page_room


class PageCase(NamedTuple):
    """What is passed to the call."""

    text: bytes
    table: bytes
    node: int
    buffer: bytes


# --------------------------------------------------------------------------
# Pages told by hand
# --------------------------------------------------------------------------


def told_page(*lines: bytes) -> bytes:
    """A page by its lines, without the spaces behind."""
    return b"".join(line.ljust(79) + b"\n" for line in lines)


PAGE_V = told_page(
    b"                0 1 2",
    b"    0    0    1 1 0 0",
    b"    1    1    1 1 0 0",
)
"""Document 01's job V after finish, either node's."""


# --------------------------------------------------------------------------
# The cases on which the definitions are computed
# --------------------------------------------------------------------------

ONE = Picture(1, [0], [65_535], [(0, 0)], [(ATOM, 15, 0)])
"""The least job, with a label that touches the owner."""

THREE = Picture(
    3,
    [1, 0, 2],
    [40_000, 7, 1_234],
    [(0, 1), (1, 0), (2, 2)],
    [(ATOM, 0, 0), (NOT, 0, 0), (EU, 0, 1)],
)
"""Nodes 0 and 1 have states 0 and 1, each owning the other's border state, and
node 2 has state 2 alone."""

FOUR = Picture(
    2,
    [0, 0, 1, 1],
    [9, 10, 9_999, 10_000],
    [(0, 2), (1, 1), (2, 0), (3, 3)],
    [(ATOM, 3, 0), (AX, 0, 0)],
)
"""Each node has its two states and one of the other's; labels of several widths."""

LATE = Picture(8, [7, 7], [0, 65_535], [(0, 1), (1, 1)], [(ATOM, 0, 0), (EG, 0, 0)])
"""All states with the last of eight nodes: to the others all are outside."""

WIDE = Picture(
    1,
    [0],
    [100],
    [(0, 0)],
    [(ATOM, 2, 0)]
    + [(NOT, k, 0) if k % 3 else (AND, k, k) for k in range(29)]
    + [(AU, 3, 4), (EG, 5, 0)],
)
"""32 subformulas: the numbers of the heading and the marks reach column 79."""


def uneven(length: int) -> bytes:
    """A buffer in which every byte stands, and no byte behind itself."""
    return (bytes(range(256)) * (length // 256 + 1))[:length]


def even(length: int) -> bytes:
    """A buffer of one byte that no page has."""
    return bytes([7]) * length


def mixed(job: Picture) -> bytes:
    """A table of cells that no rule gives: 0, 1 and empty in turns that fit no
    size."""
    parsed = checker.parse(job.text())
    table = bytearray(tables.fresh_table(parsed))
    for i, cell in enumerate(tables.inside(parsed)):
        table[cell] = (0, 1, EMPTY, 1, EMPTY, 0, 0)[i % 7]
    return bytes(table)


def shown() -> Iterator[PageCase]:
    """Pages of every node, most in a buffer that is just long enough."""
    for cell in (0, 1, EMPTY):
        yield PageCase(ONE.text(), bytes([cell]), 0, even(page_room(1)))
    for node in range(3):
        yield PageCase(THREE.text(), mixed(THREE), node, even(page_room(3)))
    for node in range(2):
        yield PageCase(FOUR.text(), mixed(FOUR), node, uneven(page_room(4)))
    for node in (0, 7):
        yield PageCase(LATE.text(), mixed(LATE), node, even(page_room(2)))
    yield PageCase(WIDE.text(), mixed(WIDE), 0, even(page_room(1)))
    v = JOB_V.text()
    fresh = tables.fresh_table(checker.parse(v))
    for table in (fresh, checker.finish(v, fresh)[1]):
        yield PageCase(v, table, 0, even(page_room(2)))
    for more in (1, 79, 80, page_room(1)):
        yield PageCase(ONE.text(), b"\1", 0, uneven(page_room(1) + more))
    yield PageCase(v, mixed(JOB_V), 1, uneven(page_room(2) + 300))


def refused() -> Iterator[PageCase]:
    """Each question failing, alone and with later ones: the buffer stays."""
    v, table, enough = JOB_V.text(), mixed(JOB_V), page_room(2)
    # 1 to 8.
    texts = [
        b"",
        replace(JOB_V, nodes=9).text(),
        v + b"\n",
        v.replace(b"    6    0    1\n", b"    6    0   01\n"),
        replace(JOB_V, owner=[0, 2]).text(),
        replace(JOB_V, edges=[(1, 0), (0, 1)]).text(),
        replace(JOB_V, edges=[(0, 1)]).text(),
        replace(JOB_V, rules=[*JOB_V.rules[:2], (AU, 0, 2)]).text(),
    ]
    for i, text in enumerate(texts):
        yield PageCase(text, table, 0, (uneven, even)[i % 2](enough))
    yield PageCase(texts[3], b"", 255, b"")
    # 9 and 10.
    outside = bytes([1]) + mixed(LATE)[1:]
    for job, wrong in (
        (JOB_V, table[:-1]),
        (JOB_V, table + b"\2"),
        (JOB_V, b"\3" + table[1:]),
        (LATE, outside),
    ):
        states, nodes = len(job.owner), job.nodes
        yield PageCase(job.text(), wrong, 0, uneven(page_room(states)))
        yield PageCase(job.text(), wrong, nodes, even(page_room(states) - 1))
    yield PageCase(v, table[:-1], 0, even(enough - 1))
    yield PageCase(v, b"\3" + table[1:], 0, even(enough - 1))
    yield PageCase(v, b"\3" + table[1:], 2, even(enough))
    # 11 and 24.
    for node in (2, 3, 254, 255, 256):
        yield PageCase(v, table, node, uneven(enough))
    for node in (2, 255):
        yield PageCase(v, table, node, even(enough - 1))
        yield PageCase(v, table, node, b"")
    for length in (0, 1, 79, 80, enough - 80, enough - 3, enough - 1):
        yield PageCase(v, table, 1, uneven(length))
    yield PageCase(THREE.text(), mixed(THREE), 2, uneven(page_room(2)))


def chosen() -> list[PageCase]:
    """Cases that together notice every wrong reading of the page in mutants.py."""
    return [*shown(), *refused()]


# --------------------------------------------------------------------------
# Drawn cases
# --------------------------------------------------------------------------


def drawn(rng: random.Random, count: int) -> Iterator[PageCase]:
    """Draws of a small job: the page of each node, into a buffer of any content
    and mostly long enough, and two that are mostly refused."""
    for _ in range(count):
        job = generate.picture(rng, 4, 6, 3)
        text, parsed = job.text(), checker.parse(job.text())
        table = tables.good_table(rng, text)
        for node in range(job.nodes):
            room = tables.some_room(rng, parsed)
            yield PageCase(text, table, node, rng.randbytes(room))
        node, room = tables.any_numbers(rng, parsed, "page", 0.5)
        wrong = rng.choice([table, tables.bad_table(rng, parsed)])
        yield PageCase(text, wrong, node, rng.randbytes(room))
        spoilt = damaged.spoilt(rng, job)
        if len(spoilt) <= damaged.COMPUTED:
            yield PageCase(spoilt, table, node, rng.randbytes(room))
