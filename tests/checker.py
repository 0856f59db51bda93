"""A second model of the cell table, written apart from the product.

It follows document 01 ("A cell table for cut-up state machines"), document 02
where it changes that one, and nothing else.  Names in quotes are document 01's
headings.  The standard library is all it needs.

* `read`, `line`: the job text.
* `fresh`, `step`, `offer`, `accept`, `look`, `close`, `finish`, `page`: the calls
  on a table.  Each takes the text, the table and its numbers, and gives all the
  numbers of the answer (number and line first) and the table afterwards.  What
  page writes is in pages.py.
* `truth`: CTL truth on the uncut structure, by graph search; it shares nothing
  with the rules of a step.
* `verdict_line`: what the program `verdict` prints.

Run as a program it is a stand-in for `verdict`: job on standard input.
"""

from __future__ import annotations

import re
import sys
from dataclasses import dataclass
from functools import lru_cache, wraps
from typing import Callable, Iterable, NamedTuple, Sequence

KINDS = range(1, 10)
ATOM, NOT, AND, AX, EX, AU, EU, EG, AG = KINDS
"""The kinds of a subformula ("Job text"; document 02, (iii))."""

UNTILS = (AU, EU)
ALL_ALONG = (EG, AG)
SETS = UNTILS + ALL_ALONG
"""The kinds that a step fills by sets."""

WITH_B = (AND, *UNTILS)
"""The kinds with two operands."""

TEMPORAL = (AX, EX, *SETS)
FALSE, TRUE, EMPTY = 0, 1, 2
"""What a cell holds ("Fragments and cells")."""

NO_NODE = 255
"""Look: no node is named ("Messages, closing, finishing"), which is read as the
owner of the state (document 02, (ii))."""

LONGEST = 25_877
"""The bytes of the longest text ("Job text")."""

PAGE_LINE = 80
"""The bytes of a line of a page: 79 columns and byte 10 (document 02, (v))."""

Answer = tuple[list[int], bytes]
"""All the numbers of an answer, and the table afterwards."""


class No(Exception):
    """A question answered no: its number, and a line for 1 to 8 (else 0)."""

    def __init__(self, number: int, line: int = 0) -> None:
        super().__init__(number, line)
        self.number = number
        self.line = line


def ask(yes: bool, number: int, line: int = 0) -> None:
    """ "A no ends the call with the number beside it." """
    if not yes:
        raise No(number, line)


# --------------------------------------------------------------------------
# The job text
# --------------------------------------------------------------------------


class Sizes(NamedTuple):
    """The four numbers of line 1."""

    states: int
    edges: int
    formulas: int
    nodes: int


class Rule(NamedTuple):
    """A subformula line: kind, a, b."""

    kind: int
    a: int
    b: int


@dataclass(eq=False)
class Job:
    """An accepted text, taken apart."""

    sizes: Sizes
    owner: list[int]
    label: list[int]
    successors: list[list[int]]
    rules: list[Rule]

    def __post_init__(self) -> None:
        """ "Fragments and cells": who owns what, and the border states.

        A node's fragment is its states and their successors, with the edges
        that leave its states.  Every state has an edge out, so the states of
        the fragment without one there are those of other owners.
        """
        self.owned: list[list[int]] = []
        self.border: list[list[int]] = []
        self.fragment: list[list[int]] = []
        for node in range(self.sizes.nodes):
            owned = [s for s, owner in enumerate(self.owner) if owner == node]
            reached = {t for s in owned for t in self.successors[s]}
            self.owned.append(owned)
            self.border.append(sorted(reached.difference(owned)))
            self.fragment.append(sorted(reached.union(owned)))

    def cell(self, node: int, state: int, formula: int) -> int:
        """The place of a cell in the table."""
        return (node * self.sizes.states + state) * self.sizes.formulas + formula

    def size(self) -> int:
        """The bytes of the table."""
        return self.sizes.nodes * self.sizes.states * self.sizes.formulas

    def temporal(self) -> list[int]:
        """The temporal subformulas, upward."""
        return [k for k, rule in enumerate(self.rules) if rule.kind in TEMPORAL]


FIELD = re.compile(rb" *(0|[1-9][0-9]*)")


def fields(part: bytes, count: int) -> list[int] | None:
    """The numbers of a line of `count` fields and byte 10; None if ill-formed."""
    if len(part) != 5 * count + 1 or part[-1] != 10:
        return None
    numbers = []
    for start in range(0, 5 * count, 5):
        field = part[start : start + 5]
        if not FIELD.fullmatch(field):
            return None
        numbers.append(int(field))
    return numbers


def sizes(text: bytes) -> Sizes:
    """Questions 1 to 3."""
    first = fields(text[:21], 4)
    ask(first is not None, 1, 1)
    size = Sizes(*first)
    ask(
        1 <= size.states <= 256
        and 1 <= size.edges <= 2048
        and 1 <= size.formulas <= 32
        and 1 <= size.nodes <= 8,
        2,
        1,
    )
    ask(len(text) == 21 + 11 * size.states + 11 * size.edges + 16 * size.formulas, 3, 1)
    return size


def place(size: Sizes, number: int) -> tuple[int, int]:
    """Where line `number` starts and how many fields it has (0: no such line)."""
    short = size.states + size.edges
    if number == 1:
        return 0, 4
    if 2 <= number < 2 + short:
        return 21 + 11 * (number - 2), 2
    if 2 + short <= number < 2 + short + size.formulas:
        return 21 + 11 * short + 16 * (number - 2 - short), 3
    return 0, 0


@lru_cache(maxsize=64)
def parse(text: bytes) -> Job:
    """Questions 1 to 8, each put to all its lines before the next."""
    size = sizes(text)

    lines: list[list[int]] = []  # lines 2 and on
    for number in range(2, 2 + size.states + size.edges + size.formulas):
        start, count = place(size, number)
        line_fields = fields(text[start : start + 5 * count + 1], count)
        ask(line_fields is not None, 4, number)
        lines.append(line_fields)

    first_edge = size.states
    first_rule = size.states + size.edges
    states = lines[:first_edge]
    edges = [(a, b) for a, b in lines[first_edge:first_rule]]
    rules = [Rule(*line) for line in lines[first_rule:]]

    for s, (owner, label) in enumerate(states):
        ask(owner < size.nodes and label <= 65_535, 5, 2 + s)

    for e, (start, end) in enumerate(edges):
        ask(
            start < size.states
            and end < size.states
            and (e == 0 or edges[e - 1] < edges[e]),
            6,
            2 + first_edge + e,
        )

    successors: list[list[int]] = [[] for _ in states]
    for start, end in edges:
        successors[start].append(end)
    for s in range(size.states):
        ask(len(successors[s]) > 0, 7, 2 + s)

    for k, (kind, a, b) in enumerate(rules):
        ask(
            kind in KINDS
            and (a <= 15 if kind == ATOM else a < k)
            and (b < k if kind in WITH_B else b == 0),
            8,
            2 + first_rule + k,
        )

    owners, labels = [owner for owner, _ in states], [label for _, label in states]
    return Job(size, owners, labels, successors, rules)


@lru_cache(maxsize=64)
def read(text: bytes) -> tuple[int, int, int, int, int, int]:
    """The call read: number, line, S, E, K, N."""
    try:
        return (0, 0, *parse(text).sizes)
    except No as no:
        return (no.number, no.line, 0, 0, 0, 0)


def line(text: bytes, number: int) -> bytes:
    """The call line: that part of the text without its last byte, unread."""
    try:
        start, count = place(sizes(text), number)
    except No:
        return b""
    return text[start : start + 5 * count]


# --------------------------------------------------------------------------
# Step of one node
# --------------------------------------------------------------------------


def rule_of_not(a: int) -> int:
    """ "Not: the other value of a filled cell." """
    return {TRUE: FALSE, FALSE: TRUE, EMPTY: EMPTY}[a]


def rule_of_and(a: int, b: int) -> int:
    """ "And: true if both are true, false if either is false." """
    if a == TRUE and b == TRUE:
        return TRUE
    if a == FALSE or b == FALSE:
        return FALSE
    return EMPTY


def rule_of_next(kind: int, at_successors: list[int]) -> int:
    """ "AX: true if a is true at all successors, false if a is false at some.
    EX: true if a is true at some, false if false at all." """
    true, false = (all, any) if kind == AX else (any, all)
    if true(a == TRUE for a in at_successors):
        return TRUE
    if false(a == FALSE for a in at_successors):
        return FALSE
    return EMPTY


class SetRule(NamedTuple):
    """What A(a U b), E(a U b), EG a and AG a differ in.

    One of the two sets of cells is the smallest that holds the cells with
    `value` already, those where `start` is true, and those where `grow` is true
    and `quantifier` (all or some) of the successors are in the set.  The other
    is the largest of cells each with the other value already, or with `start`
    false and either `grow` false or, in the other quantifier, successors in the
    set.  `start` and `grow` have a cell for each state.
    """

    quantifier: Callable[[Iterable[bool]], bool]
    start: Sequence[int]
    grow: Sequence[int]
    value: int


def set_rule(kind: int, a: Sequence[int], b: Sequence[int]) -> SetRule:
    """ "The true cells are the smallest set holding those already true, those with
    b true, and those with a true and all successors in the set"; of EG a, "false
    cells are the smallest set already false, or with a false, or with all
    successors in the set" (document 02, (iii)).  E(a U b) and AG a: some for all."""
    if kind in UNTILS:
        return SetRule(all if kind == AU else any, b, a, TRUE)
    a_false = [rule_of_not(cell) for cell in a]
    return SetRule(all if kind == EG else any, a_false, [TRUE] * len(a), FALSE)


def rule_of_sets(
    job: Job, node: int, own: Sequence[int], rule: SetRule
) -> tuple[set[int], set[int]]:
    """The smallest and the largest set; `own` are the node's cells at each state.

    A border state is in a set only by its own value.  The restriction holds
    while the sets are made: the smallest set takes no cell filled with the other
    value, the largest starts without the cells of the smallest.
    """
    quantifier, start, grow, value = rule
    dual = any if quantifier is all else all
    owned = job.owned[node]
    other = rule_of_not(value)

    smallest = {s for s in job.fragment[node] if own[s] == value}
    while True:
        more = {
            s
            for s in owned
            if s not in smallest
            and own[s] != other
            and (
                start[s] == TRUE
                or (
                    grow[s] == TRUE
                    and quantifier(t in smallest for t in job.successors[s])
                )
            )
        }
        if not more:
            break
        smallest |= more

    already = {s for s in job.fragment[node] if own[s] == other}
    largest = already.union(s for s in owned if s not in smallest and start[s] == FALSE)
    while True:
        fewer = {
            s
            for s in largest
            if s not in already
            and grow[s] != FALSE
            and not dual(t in largest for t in job.successors[s])
        }
        if not fewer:
            break
        largest -= fewer

    return smallest, largest


def fill_rule(job: Job, table: bytearray, node: int, k: int) -> int:
    """The step of one node for one subformula; how many cells it filled."""
    kind, a, b = job.rules[k]

    def column(formula: int) -> Sequence[int]:
        """The node's cells of a subformula, one for each state."""
        start, end = job.cell(node, 0, formula), job.cell(node + 1, 0, formula)
        return table[start : end : job.sizes.formulas]

    value: dict[int, int] = {}
    if kind == ATOM:
        for s in job.fragment[node]:
            value[s] = job.label[s] >> a & 1
    elif kind == NOT:
        cells = column(a)
        for s in job.fragment[node]:
            value[s] = rule_of_not(cells[s])
    elif kind == AND:
        cells, others = column(a), column(b)
        for s in job.fragment[node]:
            value[s] = rule_of_and(cells[s], others[s])
    elif kind in (AX, EX):
        cells = column(a)
        for s in job.owned[node]:
            value[s] = rule_of_next(kind, [cells[t] for t in job.successors[s]])
    else:
        rule = set_rule(kind, column(a), column(b))
        smallest, largest = rule_of_sets(job, node, column(k), rule)
        value.update(dict.fromkeys(smallest, rule.value))
        value.update(dict.fromkeys(largest, rule_of_not(rule.value)))

    filled = 0
    for s, cell in value.items():
        filled += fill(table, job.cell(node, s, k), cell)
    return filled


def fill(table: bytearray, cell: int, value: int) -> int:
    """ "A filled cell is never changed." """
    if table[cell] != EMPTY or value == EMPTY:
        return 0
    table[cell] = value
    return 1


def step_node(job: Job, table: bytearray, node: int) -> int:
    """ "Subformulas are taken from 0 upward." """
    return sum(fill_rule(job, table, node, k) for k in range(job.sizes.formulas))


# --------------------------------------------------------------------------
# Messages, closing, finishing
# --------------------------------------------------------------------------


def owners_cell(job: Job, state: int, k: int) -> int:
    """The place of the owner's cell."""
    return job.cell(job.owner[state], state, k)


def copies(
    job: Job, table: bytes | bytearray, formulas: Iterable[int]
) -> list[tuple[int, int, int, int]]:
    """Of these temporal subformulas, the empty cells at border states whose
    owner's cell is filled: node, state, subformula and the owner's value."""
    return [
        (node, s, k, table[owners_cell(job, s, k)])
        for k in formulas
        for node in range(job.sizes.nodes)
        for s in job.border[node]
        if table[job.cell(node, s, k)] == EMPTY
        and table[owners_cell(job, s, k)] != EMPTY
    ]


def settled(job: Job, table: bytes | bytearray) -> bool:
    """ "A table is settled when ..." """
    return not copies(job, table, job.temporal()) and all(
        step_node(job, bytearray(table), node) == 0 for node in range(job.sizes.nodes)
    )


def lowest_open(job: Job, table: bytes | bytearray) -> int | None:
    """ "The smallest number k for which some owner's cell is empty." """
    for k in range(job.sizes.formulas):
        for s in range(job.sizes.states):
            if table[owners_cell(job, s, k)] == EMPTY:
                return k
    return None


def close_formula(job: Job, table: bytearray, k: int) -> int:
    """ "Makes every empty cell of k in every fragment 0", "1 for kinds 8 and 9"
    (document 02, (iii)); how many."""
    value = TRUE if job.rules[k].kind in ALL_ALONG else FALSE
    return sum(
        fill(table, job.cell(node, s, k), value)
        for node in range(job.sizes.nodes)
        for s in job.fragment[node]
    )


def plain_round(job: Job, table: bytearray) -> int:
    """ "A round: ..." by the words; how many cells it filled."""
    filled = sum(step_node(job, table, node) for node in range(job.sizes.nodes))
    for node, s, k, value in copies(job, table, job.temporal()):
        filled += fill(table, job.cell(node, s, k), value)
    if filled == 0 and settled(job, table):
        k = lowest_open(job, table)
        if k is not None:
            filled += close_formula(job, table, k)
    return filled


class Rounds:
    """The same rounds on one table, without work that can fill nothing.

    A step fills what the rules allow at once, so a rule need not be worked
    again at a node until one of the node's cells that it reads is filled:
    `news` keeps the pairs of node and subformula with something to do.  In the
    same way a subformula need not be copied until a cell of it is filled:
    `filled` keeps those with something to copy.
    """

    def __init__(self, job: Job, table: bytearray) -> None:
        self.job = job
        self.table = table
        nodes, formulas = range(job.sizes.nodes), range(job.sizes.formulas)
        self.news = {(node, k) for node in nodes for k in formulas}
        self.filled = set(formulas)
        self.readers: list[list[int]] = [[k] for k in formulas]
        for k, rule in enumerate(job.rules):
            if rule.kind != ATOM:
                self.readers[rule.a].append(k)
            if rule.kind in WITH_B:
                self.readers[rule.b].append(k)

    def tell(self, node: int, k: int) -> None:
        """A cell of the node and of subformula k was filled."""
        self.news.update((node, reader) for reader in self.readers[k])
        self.filled.add(k)

    def steps(self) -> int:
        """Steps of nodes 0 to N - 1."""
        filled = 0
        for node in range(self.job.sizes.nodes):
            for k in range(self.job.sizes.formulas):
                if (node, k) in self.news:
                    here = fill_rule(self.job, self.table, node, k)
                    if here > 0:
                        self.tell(node, k)
                    self.news.discard((node, k))
                    filled += here
        return filled

    def copy(self) -> int:
        """Every owner's filled temporal cell, into the empty cells for it."""
        found = copies(
            self.job,
            self.table,
            [k for k in self.job.temporal() if k in self.filled],
        )
        self.filled.clear()
        for node, s, k, value in found:
            fill(self.table, self.job.cell(node, s, k), value)
            self.tell(node, k)
        return len(found)

    def closing(self) -> int:
        """What close would do, or nothing if close would refuse."""
        k = lowest_open(self.job, self.table)
        if k is None or not settled(self.job, self.table):
            return 0
        for node in range(self.job.sizes.nodes):
            self.tell(node, k)
        return close_formula(self.job, self.table, k)

    def round(self) -> int:
        """ "A round: ..."; how many cells it filled."""
        filled = self.steps()
        filled += self.copy()
        if filled == 0:
            filled += self.closing()
        return filled


def do_rounds(job: Job, table: bytearray, one_round: Callable[[], int]) -> list[int]:
    """ "Finish does rounds until one fills nothing": the owner's cell of state
    0 and the whole formula, the rounds done and the cells filled."""
    done, cells = 0, 0
    while True:
        filled = one_round()
        done += 1
        cells += filled
        if filled == 0:
            break
    verdict = table[owners_cell(job, 0, job.sizes.formulas - 1)]
    return [verdict, done, cells]


# --------------------------------------------------------------------------
# The calls on a table ("The questions put to a call")
# --------------------------------------------------------------------------


def call(width: int) -> Callable[[Callable[..., Answer]], Callable[..., Answer]]:
    """A call with `width` numbers in its answer: "A refusal gives its number,
    the line for 1 to 8 (else 0), and 0 in every other number; the table ...
    stay[s]." """

    def wrap(body: Callable[..., Answer]) -> Callable[..., Answer]:
        @wraps(body)
        def run(text: bytes, table: bytes, *numbers: int) -> Answer:
            try:
                return body(text, table, *numbers)
            except No as no:
                return [no.number, no.line] + [0] * (width - 2), bytes(table)

        return run

    return wrap


def ask_table(job: Job, table: bytes) -> None:
    """Questions 9 and 10."""
    ask(len(table) == job.size(), 9)
    ask(all(byte <= 2 for byte in table), 10)
    for node in range(job.sizes.nodes):
        inside = set(job.fragment[node])
        for s in range(job.sizes.states):
            if s not in inside:
                start = job.cell(node, s, 0)
                row = table[start : start + job.sizes.formulas]
                ask(all(byte == EMPTY for byte in row), 10)


def ask_names(job: Job, state: int, formula: int) -> None:
    """Question 12."""
    ask(state < job.sizes.states and formula < job.sizes.formulas, 12)


@call(2)
def fresh(text: bytes, table: bytes) -> Answer:
    """Questions 1 to 9.  "Fresh makes all cells 2." """
    job = parse(text)
    ask(len(table) == job.size(), 9)
    return [0, 0], bytes([EMPTY]) * job.size()


@call(3)
def step(text: bytes, table: bytes, node: int) -> Answer:
    """Questions 1 to 11.  The answer is the number of cells filled."""
    job = parse(text)
    ask_table(job, table)
    ask(node < job.sizes.nodes, 11)
    after = bytearray(table)
    filled = step_node(job, after, node)
    return [0, 0, filled], bytes(after)


@call(5)
def offer(text: bytes, table: bytes, state: int, formula: int) -> Answer:
    """Questions 1 to 10, 12 to 14.  The answer is a message."""
    job = parse(text)
    ask_table(job, table)
    ask_names(job, state, formula)
    ask(job.rules[formula].kind in TEMPORAL, 13)
    value = table[owners_cell(job, state, formula)]
    ask(value != EMPTY, 14)
    return [0, 0, state, formula, value], bytes(table)


@call(3)
def accept(
    text: bytes, table: bytes, node: int, state: int, formula: int, value: int
) -> Answer:
    """Questions 1 to 13, 15 to 17.  The answer is the number filled."""
    job = parse(text)
    ask_table(job, table)
    ask(node < job.sizes.nodes, 11)
    ask_names(job, state, formula)
    ask(job.rules[formula].kind in TEMPORAL, 13)
    ask(value in (FALSE, TRUE), 15)
    ask(state in job.border[node], 16)
    cell = job.cell(node, state, formula)
    ask(table[cell] in (EMPTY, value), 17)
    after = bytearray(table)
    filled = fill(after, cell, value)
    return [0, 0, filled], bytes(after)


@call(3)
def look(text: bytes, table: bytes, node: int, state: int, formula: int) -> Answer:
    """Questions 1 to 12, 18.  The answer is the cell, 2 included; where no node
    is named, the owner's."""
    job = parse(text)
    ask_table(job, table)
    ask(node < job.sizes.nodes or node == NO_NODE, 11)
    ask_names(job, state, formula)
    read = job.owner[state] if node == NO_NODE else node
    ask(state in job.fragment[read], 18)
    return [0, 0, table[job.cell(read, state, formula)]], bytes(table)


@call(4)
def close(text: bytes, table: bytes) -> Answer:
    """Questions 1 to 10, 19, 20.  The answer is k and the number filled."""
    job = parse(text)
    ask_table(job, table)
    ask(settled(job, table), 19)
    k = lowest_open(job, table)
    ask(k is not None, 20)
    after = bytearray(table)
    filled = close_formula(job, after, k)
    return [0, 0, k, filled], bytes(after)


@call(5)
def finish(text: bytes, table: bytes) -> Answer:
    """Questions 1 to 10.  The answer is the verdict, the rounds done (the last
    one counted) and the cells filled."""
    job = parse(text)
    ask_table(job, table)
    after = bytearray(table)
    numbers = do_rounds(job, after, Rounds(job, after).round)
    return [0, 0, *numbers], bytes(after)


@call(2)
def page(text: bytes, table: bytes, node: int, room: int) -> Answer:
    """Questions 1 to 11, 24 (document 02, (v)), where the buffer that is lent has
    `room` bytes.  The table is only read."""
    job = parse(text)
    ask_table(job, table)
    ask(node < job.sizes.nodes, 11)
    ask(room >= PAGE_LINE * (job.sizes.states + 1), 24)
    return [0, 0], bytes(table)


# --------------------------------------------------------------------------
# CTL truth on the uncut structure ("CTL truth")
# --------------------------------------------------------------------------


def reaching(job: Job, goal: set[int], through: set[int]) -> set[int]:
    """The states from which a path leads to `goal` with every earlier state in
    `through`; those of `goal` itself are among them."""
    before: list[list[int]] = [[] for _ in job.owner]
    for s, ends in enumerate(job.successors):
        for t in ends:
            before[t].append(s)
    found = set(goal)
    waiting = list(goal)
    while waiting:
        for s in before[waiting.pop()]:
            if s in through and s not in found:
                found.add(s)
                waiting.append(s)
    return found


def on_cycles(job: Job, inside: set[int]) -> set[int]:
    """The states on a cycle of edges within `inside`: the strong components
    (Tarjan, without recursion) of two states or more, and the loops."""
    order: dict[int, int] = {}
    low: dict[int, int] = {}
    stack: list[int] = []
    stacked: set[int] = set()
    found: set[int] = set()
    for root in sorted(inside):
        if root in order:
            continue
        path: list[tuple[int, Iterable[int]]] = []

        def enter(s: int) -> None:
            order[s] = low[s] = len(order)
            stack.append(s)
            stacked.add(s)
            path.append((s, iter([t for t in job.successors[s] if t in inside])))

        enter(root)
        while path:
            s, ends = path[-1]
            t = next(iter(ends), None)
            if t is not None:
                if t not in order:
                    enter(t)
                elif t in stacked:
                    low[s] = min(low[s], order[t])
                continue
            path.pop()
            if path:
                parent = path[-1][0]
                low[parent] = min(low[parent], low[s])
            if low[s] == order[s]:
                component = []
                while not component or component[-1] != s:
                    component.append(stack.pop())
                stacked.difference_update(component)
                if len(component) > 1 or s in job.successors[s]:
                    found.update(component)
    return found


@lru_cache(maxsize=64)
def truths(job: Job) -> list[set[int]]:
    """For each subformula the states where it holds, whoever owns them."""
    every = set(range(job.sizes.states))
    holds: list[set[int]] = []
    for kind, a, b in job.rules:
        if kind == ATOM:
            here = {s for s in every if job.label[s] & 2**a}
        elif kind == NOT:
            here = every - holds[a]
        elif kind == AND:
            here = holds[a] & holds[b]
        elif kind == AX:
            here = {s for s in every if holds[a].issuperset(job.successors[s])}
        elif kind == EX:
            here = {s for s in every if not holds[a].isdisjoint(job.successors[s])}
        elif kind == EU:
            here = reaching(job, holds[b], holds[a])
        elif kind == EG:
            # A walk that keeps to states with a comes to a cycle of them.
            here = reaching(job, on_cycles(job, holds[a]), holds[a])
        elif kind == AG:
            here = every - reaching(job, every - holds[a], every)
        else:
            # A walk that spoils A(a U b) keeps to states without b, and either
            # comes to one without a as well, or goes on for ever: round a cycle.
            without = every - holds[b]
            spoilt = (without - holds[a]) | on_cycles(job, without)
            here = every - reaching(job, spoilt, without)
        holds.append(here)
    return holds


def truth(job: Job, formula: int, state: int) -> bool:
    """Does the subformula hold at the state of the uncut structure?"""
    return state in truths(job)[formula]


# --------------------------------------------------------------------------
# The program
# --------------------------------------------------------------------------


def verdict_line(text: bytes) -> bytes:
    """ "Printed cases": the line that `verdict` prints for this input."""
    text = text[: LONGEST + 1]
    number, at, states, _, formulas, nodes = read(text)
    numbers = [number, at, 0, 0, 0]
    if number == 0:
        table = bytes(nodes * states * formulas)
        _, table = fresh(text, table)
        numbers, _ = finish(text, table)
    return b"".join(b"%5d" % n for n in numbers) + b"\n"


if __name__ == "__main__":
    sys.stdout.buffer.write(verdict_line(sys.stdin.buffer.read(LONGEST + 1)))
