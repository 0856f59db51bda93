"""Seeded tables and lists of calls on them."""

from __future__ import annotations

import random
from dataclasses import dataclass
from typing import Iterator

import checker
from checker import EMPTY, Job


# --------------------------------------------------------------------------
# Tables
# --------------------------------------------------------------------------


def inside(job: Job) -> list[int]:
    """The cells of the nodes' fragments."""
    return [
        job.cell(node, s, k)
        for node in range(job.sizes.nodes)
        for s in job.fragment[node]
        for k in range(job.sizes.formulas)
    ]


def fresh_table(job: Job) -> bytes:
    """What fresh leaves."""
    return bytes([EMPTY]) * job.size()


def reached_table(rng: random.Random, text: bytes) -> bytes:
    """A table reached from a fresh one by a legal list of calls."""
    table = fresh_table(checker.parse(text))
    for made in calls(rng, text, table, rng.randint(1, 12)):
        table = made.table
    return table


def consistent_table(rng: random.Random, job: Job) -> bytes:
    """Some cells hold the truth, the others nothing."""
    table = bytearray(fresh_table(job))
    part = rng.random()
    for node in range(job.sizes.nodes):
        for s in job.fragment[node]:
            for k in range(job.sizes.formulas):
                if rng.random() < part:
                    table[job.cell(node, s, k)] = checker.truth(job, k, s)
    return bytes(table)


def wild_table(rng: random.Random, job: Job) -> bytes:
    """Any cells in the fragments: question 10 is passed, nothing else holds."""
    table = bytearray(fresh_table(job))
    part = rng.choice([0.1, 0.3, 0.5, 0.7, 0.9, 1.0])
    for cell in inside(job):
        if rng.random() < part:
            table[cell] = rng.randrange(2)
    return bytes(table)


def slanted_table(rng: random.Random, job: Job) -> bytes:
    """The truth with gaps and a few lies: lies meet rules that would fill."""
    table = bytearray(consistent_table(rng, job))
    for cell in inside(job):
        if rng.random() < 0.15:
            table[cell] = rng.randrange(3)
    return bytes(table)


def open_table(rng: random.Random, job: Job) -> bytes:
    """Some subformulas filled anyhow, the rest empty: steps have much to do."""
    table = bytearray(fresh_table(job))
    chosen = [rng.random() < 0.5 for _ in job.rules]
    part = rng.choice([0.5, 0.8, 1.0])
    for cell in inside(job):
        if chosen[cell % job.sizes.formulas] and rng.random() < part:
            table[cell] = rng.randrange(2)
    return bytes(table)


def torn_table(rng: random.Random, job: Job) -> bytes:
    """The truth, but any cells where a step takes sets: these meet lies in their
    own subformula, and some cells could join both."""
    table = bytearray(fresh_table(job))
    for cell in inside(job):
        row, k = divmod(cell, job.sizes.formulas)
        table[cell] = checker.truth(job, k, row % job.sizes.states)
        if job.rules[k].kind in checker.SETS:
            table[cell] = rng.choice([0, 1, EMPTY, EMPTY])
    return bytes(table)


WILD = (wild_table, slanted_table, open_table, torn_table)
"""Tables that no honest list of calls need reach."""


def settled_table(text: bytes, table: bytes) -> bytes:
    """What steps and copies make of the table until nothing is filled."""
    job = checker.parse(text)
    after = bytearray(table)
    while not checker.settled(job, after):
        for node in range(job.sizes.nodes):
            checker.step_node(job, after, node)
        for node, s, k, value in checker.copies(job, after, job.temporal()):
            after[job.cell(node, s, k)] = value
    return bytes(after)


def wrong_length_table(rng: random.Random, job: Job) -> bytes:
    """A table that question 9 turns away."""
    size = job.size()
    other = rng.choice([0, size - 1, size + 1, 2 * size, rng.randrange(2 * size + 2)])
    return bytes([EMPTY]) * (other if other != size else size + 1)


def bad_table(rng: random.Random, job: Job) -> bytes:
    """A table that question 10 turns away: a byte over 2, or a filled cell
    outside a fragment."""
    table = bytearray(wild_table(rng, job))
    outside = sorted(set(range(job.size())).difference(inside(job)))
    if outside and rng.randrange(2):
        table[rng.choice(outside)] = rng.randrange(2)
    else:
        table[rng.randrange(job.size())] = rng.choice([3, 4, 48, 255])
    return bytes(table)


def good_table(rng: random.Random, text: bytes) -> bytes:
    """Any table that questions 9 and 10 let by."""
    job = checker.parse(text)
    way = rng.randrange(3 + len(WILD))
    if way == 0:
        return fresh_table(job)
    if way == 1:
        return reached_table(rng, text)
    if way == 2:
        return consistent_table(rng, job)
    return WILD[way - 3](rng, job)


# --------------------------------------------------------------------------
# Lists of calls
# --------------------------------------------------------------------------

NUMBERS = {
    "fresh": 0,
    "step": 1,
    "offer": 2,
    "accept": 4,
    "look": 3,
    "close": 0,
    "finish": 0,
    "page": 2,
}
"""The calls on a table, and how many numbers each takes; page a node, and how
many bytes the buffer has that is lent to it."""

KINDS_TOLD = {
    "offer": checker.TEMPORAL,
    "accept": checker.TEMPORAL,
    "close": checker.SETS,
}
"""The calls that are about one temporal subformula, and the kinds that it can
have."""


def kind_told(
    name: str, text: bytes, numbers: tuple[int, ...], answer: list[int]
) -> int:
    """The kind that such a call, accepted, is about."""
    told = {"offer": numbers[1:2], "accept": numbers[2:3], "close": answer[2:3]}
    (formula,) = told[name]
    return checker.parse(text).rules[formula].kind


@dataclass
class Call:
    """A call made: what was passed, all numbers of the answer, the table."""

    name: str
    text: bytes
    numbers: tuple[int, ...]
    answer: list[int]
    table: bytes


def make(name: str, text: bytes, table: bytes, numbers: tuple[int, ...]) -> Call:
    """Make one call of the model."""
    answer, after = getattr(checker, name)(text, table, *numbers)
    return Call(name, text, numbers, answer, after)


def page_room(states: int) -> int:
    """The bytes that a page takes."""
    return checker.PAGE_LINE * (states + 1)


def some_room(rng: random.Random, job: Job) -> int:
    """The bytes of a buffer for a page: mostly enough, often just so."""
    enough = page_room(job.sizes.states)
    if rng.randrange(4) == 0:
        line = checker.PAGE_LINE
        return rng.choice([0, 1, enough - line, enough - 1, rng.randrange(enough)])
    return enough + rng.choice([0, 0, 1, rng.randrange(200)])


def any_numbers(
    rng: random.Random, job: Job, name: str, fit: float = 0.9
) -> tuple[int, ...]:
    """Numbers for a call: mostly fit, sometimes at or over their limits."""

    def number(limit: int) -> int:
        if rng.random() < fit:
            return rng.randrange(limit)
        return rng.choice([limit, limit + 1, 254, 255, 255, 256, 257, 65_535])

    node, state = number(job.sizes.nodes), number(job.sizes.states)
    formula = number(job.sizes.formulas)
    if job.temporal() and rng.randrange(2):
        formula = rng.choice(job.temporal())
    if name == "step":
        return (node,)
    if name == "page":
        return (node, some_room(rng, job))
    if name == "offer":
        return (state, formula)
    borders = [(n, s) for n, b in enumerate(job.border) for s in b]
    if borders and rng.randrange(2):
        node, state = rng.choice(borders)
    if name == "look":
        return (checker.NO_NODE if rng.randrange(4) == 0 else node, state, formula)
    if name == "accept":
        return (node, state, formula, number(2))
    return ()


def calls(
    rng: random.Random,
    text: bytes,
    table: bytes,
    count: int,
    others: tuple[bytes, ...] = (),
) -> Iterator[Call]:
    """A list of calls on one table as demand 3 has it: an accepted accept was
    handed out by an accepted offer before, and a call that is passed another
    text (of `others`) is refused."""
    job = checker.parse(text)
    handed: list[tuple[int, int, int]] = []
    made = 0
    while made < count:
        name = rng.choice(
            ["step"] * 5 + ["offer"] * 5 + ["accept"] * 5 + ["look", "close", "close"]
            + ["page"] + (["finish"] if rng.randrange(8) == 0 else [])
        )  # fmt: skip
        numbers = any_numbers(rng, job, name)
        passed = text
        if others and rng.randrange(10) == 0:
            passed = rng.choice(others)
        elif name == "accept" and handed and rng.randrange(4):
            message = rng.choice(handed)
            near = [n for n, b in enumerate(job.border) if message[0] in b]
            numbers = (rng.choice(near) if near else numbers[0], *message)
        one = make(name, passed, table, numbers)
        accepted = one.answer[0] == 0
        if accepted and passed != text:
            continue
        if accepted and name == "accept" and numbers[1:] not in handed:
            continue
        if accepted and name == "offer":
            handed.append(tuple(one.answer[2:]))
        table = one.table
        made += 1
        yield one


def any_calls(
    rng: random.Random, text: bytes, table: bytes, count: int
) -> Iterator[Call]:
    """A list of any calls: accepted messages may be made up, fresh may come."""
    job = checker.parse(text)
    for _ in range(count):
        name = rng.choice(
            ["step"] * 6 + ["offer"] * 3 + ["accept"] * 5 + ["look"] * 3
            + ["close"] * 3 + ["finish"] * 2 + ["page"] * 2
            + ["fresh"] * (rng.randrange(6) == 0)
        )  # fmt: skip
        one = make(name, text, table, any_numbers(rng, job, name))
        table = one.table
        yield one
