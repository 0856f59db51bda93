"""The cases of compare.py, which calls.py makes too: drawn at random, and chosen
for what they show.

A case shows the answers that it gives (each call accepted, and refused under
each of its numbers; messages and closes about each kind that they can be about)
and the mutants of `mutants.py` that would answer it otherwise.  `trials` draws
many cases, takes from them cheap ones that together show everything, twice where
the count allows, and draws the rest to the count.
"""

from __future__ import annotations

import collections
import random
from dataclasses import dataclass

import checker
import damaged
import faults
import generate
import mutants
import tables

SEED, COUNT = 1, 200
"""The gate's cases."""

QUESTIONS = {
    "read": [*range(1, 9)],
    "fresh": [*range(1, 10)],
    "step": [*range(1, 12)],
    "offer": [*range(1, 11), 12, 13, 14],
    "accept": [*range(1, 14), 15, 16, 17],
    "look": [*range(1, 13), 18],
    "close": [*range(1, 11), 19, 20],
    "finish": [*range(1, 11)],
    "page": [*range(1, 12), 24],
}
"""The questions that each call puts, in order."""


@dataclass
class Trial:
    """A text, a table lent, calls on it in turn, and lines asked for."""

    text: bytes
    table: bytes
    calls: list[tuple[str, tuple[int, ...]]]
    lines: list[int]
    note: str
    lie: bool = False  # planted: the last answer is told wrongly

    def made(self) -> list[tables.Call]:
        """What the model says of each call."""
        table, made = self.table, []
        for name, numbers in self.calls:
            made.append(tables.make(name, self.text, table, numbers))
            table = made[-1].table
        if self.lie:
            made[-1].answer[-1] += 1
        return made


# --------------------------------------------------------------------------
# What a case costs
# --------------------------------------------------------------------------


def work(job: checker.Job) -> int:
    """What the definitions do for the steps of all nodes: for each node and
    subformula the table is written anew, each byte found by counting to it."""
    return job.sizes.nodes * job.sizes.formulas * job.size() ** 2


def finish_work(one: tables.Call) -> int:
    """The work of an accepted finish: its rounds, and the test of a close."""
    return work(checker.parse(one.text)) * (one.answer[3] + 1)


LONG = 10_000
"""A finish of more work is computed round by round."""


def is_long(one: tables.Call) -> bool:
    """A finish to be computed round by round."""
    return one.name == "finish" and one.answer[0] == 0 and finish_work(one) > LONG


def call_cost(one: tables.Call) -> int:
    """About what the prover takes for a call; 250,000 are a second or so.  A
    finish costs a dozen times the work unless it is computed round by round."""
    number = one.answer[0]
    cost = 12 * len(one.text)
    if 1 <= number <= 9:
        return cost
    job = checker.parse(one.text)
    cost += len(one.table) ** 2
    if one.name == "step" and number == 0:
        cost += work(job) // job.sizes.nodes
    if one.name == "close" and number != 10:
        cost += work(job)
    if one.name == "finish" and number == 0:
        cost += finish_work(one) * (1 if is_long(one) else 12)
    return cost


def cost(trial: Trial) -> int:
    """About what the prover takes for a case."""
    reading = 12 * len(trial.text) * (1 + len(trial.lines))
    return 1000 + reading + sum(call_cost(one) for one in trial.made())


# --------------------------------------------------------------------------
# Drawing cases
# --------------------------------------------------------------------------

STATES, FORMULAS, NODES = 4, 5, 3
"""The sizes of the jobs: the definitions compute slowly."""


def small(rng: random.Random) -> generate.Picture:
    """A job of few states, nodes, subformulas and edges."""
    if rng.randrange(3) == 0:
        return generate.tangled(rng, STATES, FORMULAS, NODES)
    states, formulas, nodes = (
        max(rng.randint(1, most), rng.randint(1, most))
        for most in (STATES, FORMULAS, NODES)
    )
    job = generate.picture(rng, states, formulas, nodes, exact=True)
    if len(job.edges) > 7:
        job.edges = generate.scattered(rng, len(job.owner), rng.randint(4, 7))
    if rng.randrange(20) == 0:
        job.nodes = 8
    return job


def some_lines(rng: random.Random, job: generate.Picture) -> list[int]:
    """Line numbers, in and out of range."""
    count = len(job.lines())
    return [rng.choice([0, 1, count, count + 1, 65_536, rng.randint(1, count)])]


def one_of_each(rng: random.Random, job: checker.Job) -> list[tuple[str, tuple[int, ...]]]:
    """Every call once."""
    return [(name, tables.any_numbers(rng, job, name)) for name in tables.NUMBERS]


def damaged_trial(rng: random.Random) -> Trial:
    """A text that is refused, and every call with it."""
    job = small(rng)
    parsed = checker.parse(job.text())
    found = [d for d in damaged.damages(rng, job) if len(d.text) <= damaged.COMPUTED]
    number = rng.choice(sorted({d.number for d in found}))
    damage = rng.choice([d for d in found if d.number == number])
    table = tables.good_table(rng, job.text())
    return Trial(
        damage.text,
        table,
        one_of_each(rng, parsed),
        [damage.line, *some_lines(rng, job)],
        f"damaged: {damage.name}",
    )


def damages_of_one(rng: random.Random) -> list[Trial]:
    """Every damage of one job, each with one call."""
    while True:
        job = small(rng)
        if len(job.owner) >= 3 and len(job.rules) >= 4 and len(job.edges) >= 4:
            break
    parsed = checker.parse(job.text())
    table = tables.fresh_table(parsed)
    return [
        Trial(
            damage.text,
            table,
            [rng.choice(one_of_each(rng, parsed))],
            [damage.line, *some_lines(rng, job)],
            f"each damage: {damage.name}",
        )
        for damage in damaged.damages(rng, job)
        if len(damage.text) <= damaged.COMPUTED
    ]


def faulty_trial(rng: random.Random) -> Trial:
    """A text with several faults at once, or an edge list with wrong lines; which
    of them is told is told by read alone."""
    job = small(rng)
    if rng.randrange(2):
        damage = faults.some_faults(rng, job)
        text, note = damage.text, f"several faults: {damage.name}"
    else:
        text, note = faults.some_edge_list(rng, job).text(), "edge list"
    return Trial(text, b"", [], some_lines(rng, job), note)


def flipped_trial(rng: random.Random) -> Trial:
    """A text with one bit turned over."""
    job = small(rng)
    parsed = checker.parse(job.text())
    text = next(damaged.flips(rng, job.text(), 1))
    calls = one_of_each(rng, parsed)
    table = tables.good_table(rng, job.text())
    return Trial(text, table, calls, some_lines(rng, job), "one bit flipped")


def bad_table_trial(rng: random.Random) -> Trial:
    """A table that is refused, and every call on it."""
    job = small(rng)
    text = job.text()
    parsed = checker.parse(text)
    wrong = rng.choice([tables.wrong_length_table, tables.bad_table])
    calls = one_of_each(rng, parsed)
    rng.shuffle(calls)
    return Trial(text, wrong(rng, parsed), calls, some_lines(rng, job), wrong.__name__)


def calls_trial(rng: random.Random) -> Trial:
    """Any calls on any table that questions 9 and 10 let by."""
    job = small(rng)
    text = job.text()
    table = tables.good_table(rng, text)
    made = tables.any_calls(rng, text, table, rng.randint(2, 5))
    calls = [(one.name, one.numbers) for one in made]
    return Trial(text, table, calls, some_lines(rng, job), "any calls")


def numbers_trial(rng: random.Random) -> Trial:
    """Calls with numbers that are often at or over their limits."""
    job = small(rng)
    text = job.text()
    parsed = checker.parse(text)
    names = rng.choices(["step", "offer", "accept", "accept", "look", "page"], k=8)
    calls = [(name, tables.any_numbers(rng, parsed, name, 0.7)) for name in names]
    table = tables.good_table(rng, text)
    return Trial(text, table, calls, some_lines(rng, job), "numbers")


def legal_trial(rng: random.Random) -> Trial:
    """A list of calls as demand 3 has it, then finish."""
    job = small(rng)
    text = job.text()
    table = tables.fresh_table(checker.parse(text))
    made = tables.calls(rng, text, table, rng.randint(2, 6))
    calls = [(one.name, one.numbers) for one in made]
    calls.append(("finish", ()))
    return Trial(text, table, calls, some_lines(rng, job), "legal list")


def settled_trial(rng: random.Random) -> Trial:
    """A settled table, wild ones too, and close, step and finish on it."""
    while True:
        job = small(rng)
        text = job.text()
        parsed = checker.parse(text)
        table = tables.settled_table(text, tables.good_table(rng, text))
        if checker.lowest_open(parsed, table) is not None or rng.randrange(200) == 0:
            break
    step = ("step", (rng.randrange(parsed.sizes.nodes),))
    calls = [("close", ()), step, ("close", ()), ("finish", ())]
    return Trial(text, table, calls, some_lines(rng, job), "settled")


def gaps_trial(rng: random.Random) -> Trial:
    """A full table with few cells emptied, most at border states; then close:
    19 where the gap can be filled, else the gap is closed, 20 where none is."""
    job = generate.tangled(rng, STATES, FORMULAS, NODES)
    text = job.text()
    parsed = checker.parse(text)
    table = bytearray(checker.finish(text, tables.good_table(rng, text))[1])
    for _ in range(rng.randrange(4)):
        node = rng.randrange(parsed.sizes.nodes)
        states = parsed.border[node] if rng.randrange(3) else parsed.owned[node]
        if states:
            formula = rng.randrange(parsed.sizes.formulas)
            table[parsed.cell(node, rng.choice(states), formula)] = checker.EMPTY
    return Trial(text, bytes(table), [("close", ()), ("finish", ())], [], "gaps")


def wild_step_trial(rng: random.Random) -> Trial:
    """Steps of every node on an inconsistent table."""
    job = small(rng)
    text = job.text()
    parsed = checker.parse(text)
    wild = rng.choice(tables.WILD)
    nodes = list(range(parsed.sizes.nodes))
    rng.shuffle(nodes)
    calls = [("step", (node,)) for node in nodes]
    table = wild(rng, parsed)
    return Trial(text, table, calls, some_lines(rng, job), f"steps, {wild.__name__}")


def sets_trial(rng: random.Random) -> Trial:
    """A step for an until, EG or AG over any cells of a, b and its own.

    Atom 0 holds nowhere, so AX 0 is false at owned states and, at the border
    state that each of them leads to, empty; EX of it then stays as it is lent.
    Those are a and b: the step may not fill them, and the sets are taken over
    every mixture of empty, false and true cells.
    """
    last = STATES - 1
    edges = {(s, last) for s in range(STATES)}
    for _ in range(rng.randint(1, 5)):
        edges.add((rng.randrange(last), rng.randrange(last)))
    if rng.randrange(2):
        edges.add((0, 0))
    rules = [(1, 0, 0), (4, 0, 0), (5, 1, 0), (5, 1, 0)]
    kind = rng.choice([*checker.UNTILS, *checker.SETS])
    a, b = rng.choice([(2, 3), (3, 2)])
    rules.append((kind, a, b if kind in checker.WITH_B else 0))
    owner = [0] * last + [1]
    text = generate.Picture(2, owner, [0] * STATES, sorted(edges), rules).text()
    job = checker.parse(text)
    table = bytearray(tables.fresh_table(job))
    likely = {a: [0, 1, 1, 2], b: [0, 0, 0, 1, 2], 4: [0, 1, 2, 2]}
    for s in range(STATES):
        for k in likely:
            table[job.cell(0, s, k)] = rng.choice(likely[k])
    return Trial(text, bytes(table), [("step", (0,))], [], "sets over any cells")


KINDS_OF_TRIAL = (
    [damaged_trial] * 3
    + [faulty_trial] * 6
    + [flipped_trial]
    + [bad_table_trial]
    + [calls_trial] * 6
    + [numbers_trial] * 2
    + [legal_trial] * 3
    + [settled_trial] * 2
    + [gaps_trial] * 2
    + [wild_step_trial] * 3
    + [sets_trial] * 6
)


# --------------------------------------------------------------------------
# Choosing cases
# --------------------------------------------------------------------------

AT_ONCE, BY_ROUNDS = "finish at once", "finish round by round"

WANTED = {f"{name} {n}" for name in QUESTIONS for n in [0, *QUESTIONS[name]]}
WANTED |= {f"{name} of kind {n}" for name, ns in tables.KINDS_TOLD.items() for n in ns}
WANTED |= {
    "line of 4 fields",
    "line of 2 fields",
    "line of 3 fields",
    "no line: 1",
    "no line: 2",
    "no line: 3",
    "no line 0",
    "no line past the last",
    AT_ONCE,
    BY_ROUNDS,
}
"""Every call accepted and refused under each of its numbers, by name; messages
and closes about every kind that they can be about; a line of every sort, and an
empty one for every reason; finish computed in both ways."""


def line_given(text: bytes, at: int) -> str:
    """What the call line comes to."""
    number = checker.read(text)[0]
    part = checker.line(text, at)
    if part:
        return f"line of {len(part) // 5} fields"
    if number in (1, 2, 3):
        return f"no line: {number}"
    return "no line 0" if at == 0 else "no line past the last"


def given(trial: Trial) -> collections.Counter[str]:
    """The answers of a case, by name."""
    found = collections.Counter([f"read {checker.read(trial.text)[0]}"])
    found.update(line_given(trial.text, at) for at in trial.lines)
    for one in trial.made():
        found[f"{one.name} {one.answer[0]}"] += 1
        if one.answer[0] != 0:
            continue
        if one.name == "finish":
            found[BY_ROUNDS if is_long(one) else AT_ONCE] += 1
        if one.name in tables.KINDS_TOLD:
            kind = tables.kind_told(one.name, one.text, one.numbers, one.answer)
            found[f"{one.name} of kind {kind}"] += 1
    return found


def missing(drawn: list[Trial]) -> list[str]:
    """What the cases do not show: answers, and mutants unnoticed."""
    shown = {name for trial in drawn for name in given(trial)}
    noticed = mutants.counts(drawn)
    return sorted(WANTED - shown) + [name for name in noticed if noticed[name] == 0]


class Pool:
    """Cases to choose from, with what each shows."""

    def __init__(self, rng: random.Random) -> None:
        """Every damage of two jobs and cases of all kinds, the cheap ones first,
        and as many more as it takes for everything to be shown twice."""
        self.trials: list[Trial] = []
        self.shown: list[set[str]] = []
        self.times = dict.fromkeys([*sorted(WANTED), *mutants.MODELS], 0)
        drawn = damages_of_one(rng) + damages_of_one(rng)
        drawn += [rng.choice(KINDS_OF_TRIAL)(rng) for _ in range(DRAWN)]
        for trial in sorted(drawn, key=cost):
            self.add(trial, self.shown_less(ENOUGH))
        for _ in range(MOST_DRAWN):
            seldom = self.shown_less(TWICE)
            if not seldom:
                break
            draw = rng.choice(KINDS_OF_TRIAL)
            for models, fitting in (
                (mutants.FAULT_MODELS, faulty_trial),
                (mutants.SET_MODELS, sets_trial),
            ):
                if not models.keys().isdisjoint(seldom):
                    draw = fitting
            self.add(draw(rng), seldom)

    def shown_less(self, times: int) -> list[str]:
        """What fewer cases show."""
        return [name for name in self.times if self.times[name] < times]

    def add(self, trial: Trial, names: list[str]) -> None:
        """One more case, if it shows one of these."""
        tried = [name for name in names if name in mutants.MODELS]
        shown = {*given(trial), *mutants.noticed(trial, tried)}
        if not shown.isdisjoint(names):
            self.trials.append(trial)
            self.shown.append(shown)
            for name in shown:
                self.times[name] += 1

    def covering(self, count: int) -> list[Trial]:
        """Cheap cases that show everything, and up to `count` of them so that
        most is shown twice."""
        costs = [cost(trial) for trial in self.trials]
        chosen = self.extended([], costs, 1, len(costs))
        for at in sorted(chosen, key=lambda at: -costs[at]):
            others = set().union(*(self.shown[i] for i in chosen if i != at))
            if self.shown[at] <= others:
                chosen.remove(at)
        chosen = self.extended(chosen, costs, TWICE, count)
        return [self.trials[at] for at in chosen]

    def extended(
        self, chosen: list[int], costs: list[int], times: int, count: int
    ) -> list[int]:
        """One more after the other, up to `count`, the case that shows most for
        its cost of what so many of those chosen should show."""
        chosen = list(chosen)
        while len(chosen) < count:
            shown = collections.Counter(name for at in chosen for name in self.shown[at])
            few = {name for name in self.times if shown[name] < times}
            gains = [len(few & self.shown[at]) for at in range(len(costs))]
            for at in chosen:
                gains[at] = 0
            best = max(range(len(costs)), key=lambda at: gains[at] / costs[at])
            if gains[best] == 0:
                break
            chosen.append(best)
        return chosen


TWICE = 2
"""How many cases should show each thing."""

ENOUGH, DRAWN, MOST_DRAWN = 4, 500, 20_000
"""How much is drawn to choose from."""


def trials(seed: int, count: int) -> list[Trial]:
    """Cases that show everything, and further ones up to `count`."""
    rng = random.Random(seed)
    drawn = Pool(rng).covering(count)
    while len(drawn) < count:
        drawn.append(rng.choice(KINDS_OF_TRIAL)(rng))
    return drawn
