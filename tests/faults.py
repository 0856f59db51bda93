"""Job texts with several faults at once, and edge lists with several wrong lines:
the order of the questions and of the lines decides what is reported.

A reader that goes over the lines once keeps what failed while it reads on, so
every question has to fail before and behind every other one, and twice.
"""

from __future__ import annotations

import itertools
import random
from dataclasses import replace
from typing import Iterable, Iterator, NamedTuple, Sequence, TypeVar

import checker
import generate
from checker import ATOM
from damaged import BAD_FIELDS, LARGEST, Damage, bad_rules, first_middle_last, sorts
from generate import Edge, Picture, written_line

Text = TypeVar("Text", Damage, Picture)

FAR = (255, 256, 65_535, 65_536, 99_999)
"""Ends that are no states, the first where there are fewer than 256: some become
states where they are cut to a byte or two."""


# --------------------------------------------------------------------------
# The jobs
# --------------------------------------------------------------------------


def shapes(rng: random.Random) -> list[Picture]:
    """Jobs to put faults into: one state, with all else at either limit; few
    states that lead on in several ways; and larger ones up to every limit."""

    def job(states: int, formulas: int, nodes: int, edges: list[Edge]) -> Picture:
        drawn = generate.picture(rng, states, formulas, nodes, exact=True)
        return replace(drawn, edges=edges)

    return [
        job(1, 1, 1, [(0, 0)]),
        job(1, 32, 8, [(0, 0)]),
        job(2, 3, 2, generate.ring(2)),
        job(4, 4, 3, generate.dense(4)),
        job(5, 6, 3, generate.scattered(rng, 5, 11)),
        job(6, 2, 8, generate.chain(6)),
        job(40, 12, 8, generate.scattered(rng, 40, 90)),
        job(256, 3, 8, generate.ring(256)),
        generate.full(rng),
    ]


def some(rng: random.Random, found: Iterable[Text], most: int) -> list[Text]:
    """All of them, or so many drawn from them."""
    listed = list(found)
    return listed if len(listed) <= most else rng.sample(listed, most)


# --------------------------------------------------------------------------
# Several questions that fail
# --------------------------------------------------------------------------


class Fault(NamedTuple):
    """Bytes of a text written otherwise, and the number and the line that the
    reading gives where this is the only fault."""

    number: int
    line: int
    start: int
    end: int
    new: bytes


def faults(rng: random.Random, job: Picture) -> list[list[Fault]]:
    """For each question but 7, and each line of its first, a middle and its last,
    some faults to choose from."""
    sizes = checker.Sizes(*job.lines()[0])
    states, edges, formulas, nodes = sizes
    first_edge, first_rule = 2 + states, 2 + states + edges
    length = len(job.text())

    def put(number: int, at: int, n: int, new: bytes) -> Fault:
        start = checker.place(sizes, at)[0] + 5 * n
        return Fault(number, at, start, start + len(new), new)

    def malformed(number: int, at: int, columns: int) -> list[Fault]:
        fields = [put(number, at, n, rng.choice(BAD_FIELDS)) for n in range(columns)]
        return [*fields, put(number, at, columns, b"\r")]

    def numbers(number: int, at: int, wrong: list[tuple[int, int]]) -> list[Fault]:
        return [put(number, at, n, b"%5d" % value) for n, value in wrong]

    over = [(n, most + 1) for n, most in enumerate(LARGEST)]
    more = [(n, sizes[n] + 1) for n in range(3) if sizes[n] < LARGEST[n]]
    found = [
        malformed(1, 1, 4),
        numbers(2, 1, [*over, *((n, 0) for n in range(4))]),
        [
            *numbers(3, 1, more),
            Fault(3, 1, length - 1, length, b""),
            Fault(3, 1, length, length, b"\n"),
        ],
    ]
    for first, count, columns in sorts(sizes):
        found += [malformed(4, at, columns) for at in first_middle_last(first, count)]
    for at in first_middle_last(2, states):
        found.append(numbers(5, at, [(0, nodes), (0, 99_999), (1, 65_536)]))
    for at in first_middle_last(first_edge, edges):
        far = rng.choice([end for end in FAR if end >= states])
        found.append(numbers(6, at, [(0, states), (1, states), (0, far), (1, far)]))
        if at > first_edge:
            again = written_line(job.edges[at - 1 - first_edge])[:-1]
            found[-1].append(put(6, at, 0, again))
    for at in first_middle_last(first_rule, formulas):
        wrong = rng.sample(bad_rules(rng, at - first_rule), 3)
        found.append([put(8, at, 0, written_line(line)[:-1]) for line in wrong])
        found[-1] += numbers(8, at, [(0, 0), (0, 10)])
    return found


def apart(chosen: Sequence[Fault]) -> bool:
    """Whether no two of them are about one byte."""
    inward = sorted(chosen, key=lambda fault: fault.start)
    return all(one.end <= other.start for one, other in zip(inward, inward[1:]))


def written_over(text: bytes, chosen: Sequence[Fault]) -> bytes:
    """The text with all of these faults, from the last back, so that the places
    of the others stay."""
    for fault in sorted(chosen, key=lambda fault: -fault.start):
        text = text[: fault.start] + fault.new + text[fault.end :]
    return text


def without(job: Picture, gap: set[int]) -> Picture:
    """The job without the edges out of these states."""
    return replace(job, edges=[edge for edge in job.edges if edge[0] not in gap])


def gaps(job: Picture) -> list[set[int]]:
    """Sets of states to be left without an edge out: none, the first, a middle
    and the last state, and the first with the last, while some edge remains."""
    states = first_middle_last(0, len(job.owner))
    tried = [set(), *({s} for s in states), {states[0], states[-1]}]
    return [gap for gap in tried if without(job, gap).edges]


def several(rng: random.Random, job: Picture) -> Iterator[Damage]:
    """Any two of questions 1 to 8 failing at once, each at its first, a middle
    and its last line, so that either stands before the other; some three."""
    for gap in gaps(job):
        base = without(job, gap)
        text, places = base.text(), faults(rng, base)
        pairs = list(itertools.combinations(places, 2))
        chosen = [(place,) for place in places] + rng.sample(pairs, len(places))
        for at_once in chosen if gap else pairs:
            ways = [way for way in itertools.product(*at_once) if apart(way)]
            if ways:
                yield together(text, rng.choice(ways), gap)


def some_faults(rng: random.Random, job: Picture) -> Damage:
    """Two or three of questions 4 to 8 failing at once, any of them twice."""
    while True:
        numbers = rng.choices(range(4, 9), k=rng.choice([2, 2, 3]))
        gap = rng.choice(gaps(job)[1:] or [set()]) if 7 in numbers else set()
        base = without(job, gap)
        places = faults(rng, base)
        way = [
            rng.choice(rng.choice([place for place in places if place[0].number == n]))
            for n in numbers
            if n != 7
        ]
        if apart(way) and (way or gap):
            return together(base.text(), way, gap)


def together(text: bytes, way: Sequence[Fault], gap: set[int]) -> Damage:
    """A text with these faults, and the states of the gap without an edge out:
    the least number is given, with its first line."""
    failing = [(fault.number, fault.line) for fault in way]
    failing += [(7, 2 + s) for s in sorted(gap)]
    name = " and ".join(f"{number} at {line}" for number, line in failing)
    return Damage(name, *min(failing), written_over(text, way))


# --------------------------------------------------------------------------
# Edge lists
# --------------------------------------------------------------------------


def every_list(states: int, count: int, ends: Sequence[int]) -> Iterator[Picture]:
    """Every list of so many edge lines with these ends."""
    pairs = itertools.product(ends, repeat=2)
    for edges in itertools.product(pairs, repeat=count):
        yield Picture(1, [0] * states, [0] * states, list(edges), [(ATOM, 0, 0)])


def short_lists() -> Iterator[Picture]:
    """Every list of few edge lines of one state and of two."""
    yield from every_list(1, 1, (0, 1, *FAR))
    yield from every_list(1, 2, (0, 1, 256))
    yield from every_list(2, 1, (0, 1, 2, *FAR))
    yield from every_list(2, 2, (0, 1, 2, 256))
    yield from every_list(2, 3, (0, 1, 2))


def moved(rng: random.Random, job: Picture, gap: set[int]) -> list[Edge]:
    """As many edges as the job has, or as there may be, but none out of these
    states."""
    states = len(job.owner)
    starts = [s for s in range(states) if s not in gap]
    edges = set(without(job, gap).edges)
    while len(edges) < min(len(job.edges), len(starts) * states):
        edges.add((rng.choice(starts), rng.randrange(states)))
    return sorted(edges)


def wrong_lines(edges: list[Edge], at: int, states: int) -> list[Edge]:
    """Lines for a place of an edge list, most of which question 6 turns away."""
    start, end = edges[at]
    before = edges[max(at - 1, 0)]
    found = [(far, end) for far in (states, *FAR)]
    found += [(start, far) for far in (states, *FAR)]
    found += [(states, states), (0, 0), before]
    found += [(before[0], max(before[1] - 1, 0)), (max(before[0] - 1, 0), end)]
    return found


def exchanged(edges: list[Edge], at: int) -> list[Edge]:
    """The list with this line and the one before exchanged; the first, with the
    last."""
    found = list(edges)
    found[at - 1], found[at] = edges[at], edges[at - 1]
    return found


def edge_lists(rng: random.Random, job: Picture) -> Iterator[Picture]:
    """The job with no edges out of some states, and with wrong edge lines: one of
    the first two, a middle and the last two, and up to three of them; with two
    lines exchanged; with all lines in another order; and with few of them, so
    that any states have none, as they are and with a wrong last one."""
    states = len(job.owner)
    for gap in gaps(job):
        edges = moved(rng, job, gap)
        last = len(edges) - 1
        places = sorted({0, min(1, last), last // 2, max(last - 1, 0), last})
        lists = [edges, edges[::-1], edges[1:] + edges[:1]]
        lists.append(rng.sample(edges, len(edges)))
        lists.append(sorted(edges, key=lambda edge: edge[::-1]))
        for at in places:
            lists.append(exchanged(edges, at))
            for line in wrong_lines(edges, at, states):
                once = [*edges[:at], line, *edges[at + 1 :]]
                more = list(once)
                for other in rng.sample(places, min(2, len(places))):
                    more[other] = rng.choice(wrong_lines(more, other, states))
                lists += [once, more]
        for _ in places:
            few = sorted(rng.sample(edges, rng.randint(1, len(edges))))
            line = rng.choice(wrong_lines(few, len(few) - 1, states))
            lists += [few, [*few[:-1], line]]
        for found in lists:
            yield replace(job, edges=found)


def some_edge_list(rng: random.Random, job: Picture) -> Picture:
    """The job with any of its edge lines, and up to three wrong ones."""
    edges = moved(rng, job, rng.choice(gaps(job)))
    edges = sorted(rng.sample(edges, rng.choice([1, len(edges), len(edges)])))
    for _ in range(rng.randrange(4)):
        at = rng.choice([0, len(edges) - 1, rng.randrange(len(edges))])
        edges[at] = rng.choice(wrong_lines(edges, at, len(job.owner)))
    return replace(job, edges=edges)
