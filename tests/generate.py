"""Seeded jobs: random ones, their cuttings, those at the limits, and the
families that take most rounds.

Everything is drawn from one `random.Random`, so a seed gives the same jobs
again.
"""

from __future__ import annotations

import itertools
import random
from dataclasses import dataclass, replace
from typing import Iterator

from checker import ALL_ALONG, KINDS, SETS, UNTILS, WITH_B
from checker import AND, ATOM, AU, AX, EU, EX, NOT

Edge = tuple[int, int]
Line = tuple[int, ...]
Rule = tuple[int, int, int]


@dataclass
class Picture:
    """A job before it is written down."""

    nodes: int
    owner: list[int]
    label: list[int]
    edges: list[Edge]
    rules: list[Rule]

    def lines(self) -> list[Line]:
        """The numbers of each line of the text."""
        first = (len(self.owner), len(self.edges), len(self.rules), self.nodes)
        return [first, *zip(self.owner, self.label), *self.edges, *self.rules]

    def text(self) -> bytes:
        """The job text."""
        return written(self.lines())


def written(lines: list[Line]) -> bytes:
    """Lines of fields of five columns."""
    return b"".join(written_line(line) for line in lines)


def written_line(numbers: Line) -> bytes:
    """One line of fields of five columns and byte 10."""
    return b"".join(b"%5d" % n for n in numbers) + b"\n"


JOB_V = Picture(
    2, [0, 1], [1, 1], [(0, 1), (1, 0)], [(ATOM, 0, 0), (ATOM, 1, 0), (AU, 0, 1)]
)
"""Document 01's job V."""


def printed() -> Iterator[tuple[str, bytes, Line]]:
    """The printed cases that are a text and a line of `verdict`."""
    c2 = replace(JOB_V, label=[1, 2])
    c4 = Picture(1, [0], [0], [(0, 0)], [(ATOM, 0, 0)])
    yield "C1", JOB_V.text(), (0, 0, 0, 3, 12)
    yield "C2", c2.text(), (0, 0, 1, 3, 12)
    yield "C3", replace(JOB_V, nodes=1, owner=[0, 0]).text(), (0, 0, 0, 2, 6)
    yield "C4", c4.text(), (0, 0, 0, 2, 1)
    yield "C5", b"", (1, 1, 0, 0, 0)
    yield "C6", replace(JOB_V, edges=[(0, 1)]).text(), (7, 3, 0, 0, 0)
    yield "C10", replace(c2, rules=[*c2.rules[:2], (EX, 1, 0)]).text(), (0, 0, 1, 2, 12)


# --------------------------------------------------------------------------
# Random jobs
# --------------------------------------------------------------------------


def chain(size: int) -> list[Edge]:
    """A way with a loop at its end."""
    return [(s, min(s + 1, size - 1)) for s in range(size)]


def ring(size: int) -> list[Edge]:
    """A ring."""
    return sorted((s, (s + 1) % size) for s in range(size))


def dense(size: int) -> list[Edge]:
    """Every pair."""
    return [(s, t) for s in range(size) for t in range(size)]


def scattered(rng: random.Random, size: int, count: int) -> list[Edge]:
    """About `count` edges, at least one from each state."""
    edges = {(s, rng.randrange(size)) for s in range(size)}
    count = min(max(count, size), size * size)
    while len(edges) < count:
        edges.add((rng.randrange(size), rng.randrange(size)))
    return sorted(edges)


def owners(rng: random.Random, size: int, nodes: int) -> list[int]:
    """A cutting: at random, in turns, in blocks, or all with one node."""
    way = rng.randrange(5)
    if way == 0:
        return [s % nodes for s in range(size)]
    if way == 1:
        return [s * nodes // size for s in range(size)]
    if way == 2:
        return [rng.randrange(nodes)] * size
    return [rng.randrange(nodes) for _ in range(size)]


def labels(rng: random.Random, size: int) -> list[int]:
    """Labels of few bits, or any."""
    way = rng.randrange(4)
    if way == 0:
        ends = [0, 32_767, 32_768, 65_534, 65_535]
        return [rng.choice([*ends, rng.randrange(65_536)]) for _ in range(size)]
    bits = 2 ** rng.randint(1, 4)
    return [rng.randrange(bits) for _ in range(size)]


def over_atoms(kind: int) -> list[Rule]:
    """Atoms 0 and 1, and a line of this kind over them."""
    return [(ATOM, 0, 0), (ATOM, 1, 0), (kind, 0, 1 if kind in WITH_B else 0)]


def about(kind: int, before: int, other: int) -> Rule:
    """A line about the line before, with another as left operand where the kind
    has two."""
    return (kind, other, before) if kind in WITH_B else (kind, before, 0)


def rules(rng: random.Random, count: int) -> list[Rule]:
    """Subformulas; operands tend to be late ones, so that formulas nest."""

    def operand(k: int) -> int:
        return max(rng.randrange(k), rng.randrange(k))

    lines: list[Rule] = []
    for k in range(count):
        kind = rng.choice([ATOM, NOT, AND, AX, EX, *2 * SETS]) if k else ATOM
        if kind == ATOM:
            lines.append((ATOM, rng.choice([0, 0, 0, 1, 1, 2, 3, 15]), 0))
        else:
            lines.append((kind, operand(k), operand(k) if kind in WITH_B else 0))
    return lines


def picture(
    rng: random.Random,
    states: int = 6,
    formulas: int = 8,
    nodes: int = 4,
    exact: bool = False,
) -> Picture:
    """A valid job of at most (or of exactly) these sizes."""
    if not exact:
        states = rng.randint(1, states)
        formulas = rng.randint(1, formulas)
        nodes = rng.randint(1, nodes)
    way = rng.randrange(5)
    if way == 0:
        edges = chain(states)
    elif way == 1:
        edges = ring(states)
    elif way == 2 and states * states <= 2048:
        edges = dense(states)
    else:
        edges = scattered(rng, states, rng.randint(states, 3 * states))
    return Picture(
        nodes,
        owners(rng, states, nodes),
        labels(rng, states),
        edges,
        rules(rng, formulas),
    )


def tangled(rng: random.Random, states: int, formulas: int, nodes: int) -> Picture:
    """A ring over nodes, of at most these sizes (at least 2, 3 and 2), where
    atom 0 holds and atom 1 does not, but for a state or two.  Each subformula
    is about the line before it, mostly untils where that one does not hold and
    EG and AG where it does: they stay open one after the other, and only close
    can fill them."""
    states = rng.randint(2, states)
    nodes = rng.randint(2, nodes)
    edges = set(ring(states))
    for _ in range(rng.choice([0, 0, 1, 2, states])):
        edges.add((rng.randrange(states), rng.randrange(states)))
    owner = [s % nodes for s in range(states)]
    rng.shuffle(owner)
    label = [1] * states
    for _ in range(rng.choice([0, 0, 0, 1, 2])):
        label[rng.randrange(states)] = rng.choice([0, 2, 3])
    lines: list[Rule] = [(ATOM, 0, 0), (ATOM, 1, 0)]
    holds = False  # the line before, at most states
    for k in range(2, rng.randint(3, formulas)):
        left_open = ALL_ALONG if holds else UNTILS
        kind = rng.choice([NOT, NOT, AND, AX, EX, *SETS, *2 * left_open])
        holds ^= kind == NOT
        lines.append(about(kind, k - 1, rng.choice([0, 0, rng.randrange(k)])))
    return Picture(nodes, owner, label, sorted(edges), lines)


def each_kind() -> Iterator[Picture]:
    """Every kind over every labelling of a ring of two states, the first with a
    loop, cut between them."""
    for kind in KINDS:
        for label in itertools.product(range(4), repeat=2):
            edges = [(0, 0), (0, 1), (1, 0)]
            yield Picture(2, [0, 1], list(label), edges, over_atoms(kind))


# --------------------------------------------------------------------------
# Cuttings of one structure
# --------------------------------------------------------------------------


def recut(rng: random.Random, job: Picture) -> Picture:
    """The same structure and formula under another cutting."""
    nodes = rng.randint(1, 8)
    return replace(job, nodes=nodes, owner=owners(rng, len(job.owner), nodes))


def cuttings(rng: random.Random, job: Picture, count: int) -> Iterator[Picture]:
    """The job as it is, uncut, and under `count` other cuttings."""
    yield job
    yield replace(job, nodes=1, owner=[0] * len(job.owner))
    for _ in range(count):
        yield recut(rng, job)


def every_cutting(job: Picture, nodes: int) -> Iterator[Picture]:
    """The same structure and formula under every cutting over the nodes."""
    for owner in itertools.product(range(nodes), repeat=len(job.owner)):
        yield replace(job, nodes=nodes, owner=list(owner))


def renumbered(rng: random.Random, job: Picture) -> Picture:
    """The same job, its states numbered otherwise; the first stays."""
    old = [0, *rng.sample(range(1, len(job.owner)), len(job.owner) - 1)]
    new = {s: i for i, s in enumerate(old)}
    return replace(
        job,
        owner=[job.owner[s] for s in old],
        label=[job.label[s] for s in old],
        edges=sorted((new[s], new[t]) for s, t in job.edges),
    )


# --------------------------------------------------------------------------
# The limits
# --------------------------------------------------------------------------


def limits(rng: random.Random) -> Iterator[Picture]:
    """S, E, K and N at their ends in every way, with the least and the
    greatest label and the last atom."""
    for states, edges in ((1, 1), (2, 2), (46, 2048), (256, 256), (256, 2048)):
        for formulas, nodes in itertools.product((1, 2, 32), (1, 8)):
            yield Picture(
                nodes,
                [rng.randrange(nodes) for _ in range(states)],
                [rng.choice([0, 32_768, 65_535]) for _ in range(states)],
                scattered(rng, states, edges),
                [(ATOM, 15, 0), *rules(rng, formulas)[1:]],
            )


def full(rng: random.Random) -> Picture:
    """All limits reached: S 256, E 2,048, K 32, N 8."""
    return replace(
        picture(rng, 256, 32, 8, exact=True),
        owner=[rng.randrange(8) for _ in range(256)],
        edges=scattered(rng, 256, 2048),
    )


# --------------------------------------------------------------------------
# Families that take many rounds
# --------------------------------------------------------------------------


def zigzag(size: int, formulas: int, nodes: int) -> Picture:
    """A path both ways, neighbours with different owners, and the rules
    E(all U first), E(that U last), E(that U first), ...: each until has to run
    the whole path after the one below it.  Rounds (K - 3)(S - 3) + 4."""
    label = [4] * size
    label[0] |= 1
    label[-1] |= 2
    there = [(s, s + 1) for s in range(size - 1)]
    lines = [(ATOM, 0, 0), (ATOM, 1, 0), (ATOM, 2, 0)]
    lines += [(EU, k - 1, (k - 3) % 2) for k in range(3, formulas)]
    return Picture(
        nodes,
        [s % nodes for s in range(size)],
        label,
        sorted(there + [(t, s) for s, t in there]),
        lines,
    )


def heavy(size: int, hanging: int, formulas: int, nodes: int) -> Picture:
    """A zigzag, a ring over nodes 0 and 1 that stays open to the end, and a
    line of the last node (of three or more) that hangs on the ring: while the
    zigzag keeps the rounds coming, each largest set falls apart along the line
    in every one.  Spare edges lead back along the line."""
    path = zigzag(size - 2 - hanging, formulas, nodes - 1)
    first = len(path.owner)
    edges = path.edges + [(first, first + 1), (first + 1, first)]
    spare = 2048 - len(edges) - hanging
    for s in range(first + 2, size):
        back = min(spare, 23, size - 1 - s)
        spare -= back
        edges += [(s, first if s == first + 2 else s - 1)]
        edges += [(s, s + 1 + i) for i in range(back)]
    owner = path.owner + [0, 1] + [nodes - 1] * hanging
    label = path.label + [4] * (2 + hanging)
    return Picture(nodes, owner, label, sorted(edges), path.rules)


def cut_chain(kind: int, size: int, formulas: int) -> Picture:
    """A chain cut at every edge, atom 0 up to the last state and atom 1 there,
    and the same line again and again: the truth of an until of the two, or the
    falsity of EG or AG of atom 0, comes from the end by one state in a round."""
    atom, other, line = over_atoms(kind)
    lines = [atom, other] + [line] * (formulas - 2)
    owner = [s % 2 for s in range(size)]
    return Picture(2, owner, [1] * (size - 1) + [2], chain(size), lines)


def cut_ring(kind: int, size: int, formulas: int, negated: bool) -> Picture:
    """A ring cut at every edge, and untils of atom 0, which holds, up to the
    line before, atom 1, which does not, at first; or EG or AG of the line
    before, atom 0 at first: a close for each, or for every second where each is
    negated."""
    lines = [(ATOM, 0, 0), (ATOM, 1, 0)]
    if kind in ALL_ALONG:
        lines.reverse()
    while len(lines) < formulas:
        again = negated and lines[-1][0] == kind
        lines.append(about(NOT if again else kind, len(lines) - 1, 0))
    return Picture(8, [s % 8 for s in range(size)], [1] * size, ring(size), lines)


def dear() -> Iterator[tuple[str, Picture, Line]]:
    """Jobs of up to the full size with verdict, rounds and cells.  Two other models
    gave them, but for chains of EG and AG and for negated rings of other kinds than
    A(a U b): these count like the others, and EG and AG have the other verdict."""
    for size, formulas, nodes, rounds, cells in (
        (16, 32, 2, 381, 1024),
        (64, 32, 2, 1773, 4096),
        (128, 32, 2, 3629, 8192),
        (256, 4, 2, 257, 2048),
        (256, 8, 2, 1269, 4096),
        (256, 16, 2, 3293, 8192),
        (256, 32, 2, 7341, 16384),
        (256, 32, 8, 7341, 24512),
    ):
        name = f"zigzag {size} {formulas} {nodes}"
        yield name, zigzag(size, formulas, nodes), (1, rounds, cells)
    for hanging, nodes, rounds, cells in (
        (60, 3, 5545, 14496),
        (120, 3, 3805, 12576),
        (120, 8, 3805, 16800),
        (160, 3, 2645, 11296),
    ):
        name = f"heavy {hanging} {nodes}"
        yield name, heavy(256, hanging, 32, nodes), (1, rounds, cells)
    for kind in SETS:
        until = int(kind in UNTILS)
        yield f"chain {kind}", cut_chain(kind, 256, 32), (until, 257, 16352)
        yield f"ring {kind}", cut_ring(kind, 256, 32, False), (1 - until, 32, 16384)
        yield f"ring {kind}, negated", cut_ring(kind, 256, 32, True), (until, 25, 16384)
