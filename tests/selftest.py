"""The model held to itself.

    selftest.py [--seed N] [--count N]

Demand 3 on random lists of calls, any tables, look without a node against look
at the owner, the sets of a step against all sets, truth by a second definition
on tiny jobs, finish by plain rounds, EG and AG against what is worked out by
hand, and every damaged text against what it was made for.  Rule text by a second
way of reading, every short text among them, against what is told of it by hand,
and the truth of a rule against that of its lines.  Pages against what is told of
them by hand, and read back: they are equal exactly where the node's cells are.
"""

from __future__ import annotations

import argparse
import itertools
import pathlib
import random
from dataclasses import dataclass, field, replace
from functools import lru_cache
from typing import Iterator

import checker
import pages
import rule_texts
import rules
from checker import AG, ALL_ALONG, AND, ATOM, AU, AX, EG, EU, EX, NOT, SETS, UNTILS
from checker import EMPTY, FALSE, TRUE, Job
from damaged import damages, flips, spoilt
from faults import several
from generate import (
    JOB_V,
    Picture,
    each_kind,
    full,
    picture,
    printed,
    recut,
    scattered,
    tangled,
    written,
    written_line,
)
from page_cases import PAGE_V, told_page
from tables import (
    WILD,
    any_calls,
    bad_table,
    calls,
    fresh_table,
    inside,
    page_room,
    settled_table,
    some_room,
    wrong_length_table,
)


EXAMPLES = pathlib.Path(__file__).parents[1] / "examples"


def check_printed() -> None:
    """C1 to C10."""
    for name, text, numbers in printed():
        assert checker.verdict_line(text) == written_line(numbers), name
    v = (EXAMPLES / "v.job").read_bytes()
    assert v == JOB_V.text()
    table = fresh_table(checker.parse(v))
    answer, after = checker.step(v, table, 0)
    assert answer == [0, 0, 4], answer
    assert all(after[k] == EMPTY for k in range(2, 12, 3))
    assert checker.close(v, table) == ([19, 0, 0, 0], table)
    answer, after = checker.accept(v, table, 0, 1, 2, 1)
    assert answer == [0, 0, 1] and after[5] == 1
    assert checker.accept(v, table, 1, 1, 2, 1) == ([16, 0, 0], table)


def check_ruled_out() -> None:
    """The restriction on the sets, one node, x -> x and y -> x.  A(a U b): x filled
    true with a, b false there; y with b false and a empty stays empty.  EG a: x
    filled true with a false there; y with a empty stays empty, and with a true
    becomes true.  Where y could join both sets it joins the smallest: for EG a and
    AG a, x filled false and a true at both; for A(a U b), x filled true, a true and
    b false at both."""
    text = Picture(1, [0, 0], [0, 0], [(0, 0), (1, 0)], [(ATOM, 0, 0)]).text()
    job = checker.parse(text)
    for kind, own, a, b, sets in (
        (AU, TRUE, (FALSE, EMPTY), (FALSE, FALSE), ({0}, set())),
        (EG, TRUE, (FALSE, EMPTY), (), (set(), {0})),
        (EG, TRUE, (FALSE, TRUE), (), (set(), {0, 1})),
        (EG, FALSE, (TRUE, TRUE), (), ({0, 1}, set())),
        (AG, FALSE, (TRUE, TRUE), (), ({0, 1}, set())),
        (AU, TRUE, (TRUE, TRUE), (FALSE, FALSE), ({0, 1}, set())),
    ):
        rule = checker.set_rule(kind, a, b)
        assert checker.rule_of_sets(job, 0, (own, EMPTY), rule) == sets, (kind, own, a)


def check_all_along() -> None:
    """EG and AG worked out by hand: the line of `verdict` for each job."""
    p, q = (ATOM, 0, 0), (ATOM, 1, 0)
    ring = Picture(2, [0, 1], [1, 1], [(0, 1), (1, 0)], [p, (EG, 0, 0)])
    beside = [p, q, (AG, 0, 0), (EU, 0, 1), (AND, 2, 3), (NOT, 4, 0)]
    way_out = [(0, 1), (1, 0), (1, 2), (2, 2)]
    for job, numbers in (
        # A ring cut between two nodes: each waits for the other, close says 1.
        (ring, (1, 3, 8)),
        (replace(ring, rules=[p, (AG, 0, 0)]), (1, 3, 8)),
        # Not cut, the step sees the ring.
        (replace(ring, nodes=1, owner=[0, 0]), (1, 2, 4)),
        # p0 ends at state 1: there it is false at once, at 0 when 0 is told.
        (replace(ring, label=[1, 0]), (0, 3, 8)),
        # AG p0 and E(p0 U p1) both open, and a not of the two: a close for each,
        # 1 and 0, and then the two lines above them.
        (replace(ring, rules=beside), (1, 5, 24)),
        # A way out to state 2, without p0: EG p0 stays in the ring, AG p0 is lost.
        (Picture(2, [0, 1, 1], [1, 1, 0], way_out, [p, (EG, 0, 0)]), (1, 3, 10)),
        (Picture(2, [0, 1, 1], [1, 1, 0], way_out, [p, (AG, 0, 0)]), (0, 3, 10)),
        # A not below: EG !p0 is false wherever p0 is.
        (replace(ring, rules=[p, (NOT, 0, 0), (EG, 1, 0)]), (0, 2, 12)),
    ):
        line = written_line((0, 0, *numbers))
        assert checker.verdict_line(job.text()) == line, (job, line)
    # Messages, and what close fills: 1 in every fragment.
    text = ring.text()
    table = settled_table(text, fresh_table(checker.parse(text)))
    assert checker.offer(text, table, 0, 1) == ([14, 0, 0, 0, 0], table)
    assert checker.offer(text, table, 0, 0) == ([13, 0, 0, 0, 0], table)
    answer, after = checker.accept(text, table, 0, 1, 1, 1)
    assert answer == [0, 0, 1] and checker.step(text, after, 0)[0] == [0, 0, 1]
    answer, after = checker.close(text, table)
    assert answer == [0, 0, 1, 4] and after == bytes([1] * 8)
    assert checker.offer(text, after, 0, 1)[0] == [0, 0, 0, 1, 1]


def check_sets(rng: random.Random, job: Job) -> None:
    """The sets of a step against all sets: the smallest among those that hold
    what they must, the largest among those that hold only what they may."""
    states = job.sizes.states
    node = rng.randrange(job.sizes.nodes)
    part = job.fragment[node]
    own, a, b = ([rng.choice([0, 1, 2, 2]) for _ in range(states)] for _ in range(3))
    kind = rng.choice(SETS)
    owned = set(job.owned[node])
    joined = TRUE if kind in UNTILS else FALSE

    def must(s: int, among: set[int]) -> bool:
        if own[s] != EMPTY or s not in owned:
            return own[s] == joined
        inside = [t in among for t in job.successors[s]]
        return {
            AU: b[s] == 1 or a[s] == 1 and all(inside),
            EU: b[s] == 1 or a[s] == 1 and any(inside),
            EG: a[s] == 0 or all(inside),
            AG: a[s] == 0 or any(inside),
        }[kind]

    def may(s: int, among: set[int]) -> bool:
        if own[s] == 1 - joined:
            return True
        if s not in owned:
            return False
        inside = [t in among for t in job.successors[s]]
        return {
            AU: b[s] == 0 and (a[s] == 0 or any(inside)),
            EU: b[s] == 0 and (a[s] == 0 or all(inside)),
            EG: a[s] == 1 and any(inside),
            AG: a[s] == 1 and all(inside),
        }[kind]

    sets = [
        set(chosen)
        for size in range(len(part) + 1)
        for chosen in itertools.combinations(part, size)
    ]
    closed = [c for c in sets if all(s in c for s in part if must(s, c))]
    smallest = set(part).intersection(*closed)
    backed = [c for c in sets if not c & smallest and all(may(s, c) for s in c)]
    largest = set().union(*backed)
    rule = checker.set_rule(kind, a, b)
    assert rule.value == joined
    assert checker.rule_of_sets(job, node, own, rule) == (smallest, largest)


def plain_finish(text: bytes, table: bytes) -> checker.Answer:
    """Finish by plain rounds."""
    job = checker.parse(text)
    after = bytearray(table)
    numbers = checker.do_rounds(job, after, lambda: checker.plain_round(job, after))
    return [0, 0, *numbers], bytes(after)


def truth_by_walks(job: Job, k: int, s: int) -> bool:
    """Truth again, by the words about walks: what happens on a walk happens
    within S places, for a walk longer than that comes round."""
    kind, a, b = job.rules[k]
    if kind == ATOM:
        return bool(job.label[s] >> a & 1)
    if kind == NOT:
        return not truth_by_walks(job, a, s)
    if kind == AND:
        return truth_by_walks(job, a, s) and truth_by_walks(job, b, s)
    if kind == AX:
        return all(truth_by_walks(job, a, t) for t in job.successors[s])
    if kind == EX:
        return any(truth_by_walks(job, a, t) for t in job.successors[s])
    walks = [[s]]
    for _ in range(job.sizes.states):
        walks = [w + [t] for w in walks for t in job.successors[w[-1]]]
    all_or_some = all if kind in (AU, AG) else any
    if kind in ALL_ALONG:
        return all_or_some(all(truth_by_walks(job, a, t) for t in w) for w in walks)
    return all_or_some(
        any(
            truth_by_walks(job, b, w[i])
            and all(truth_by_walks(job, a, t) for t in w[:i])
            for i in range(len(w))
        )
        for w in walks
    )


def check_truth(pictured: Picture) -> None:
    """Truth by walks at every state of a tiny job, and by finish at the first."""
    text = pictured.text()
    job = checker.parse(text)
    for k in range(job.sizes.formulas):
        for s in range(job.sizes.states):
            assert truth_by_walks(job, k, s) == checker.truth(job, k, s)
    verdict = checker.finish(text, fresh_table(job))[0][2]
    assert verdict == checker.truth(job, job.sizes.formulas - 1, 0)


@dataclass
class Tally:
    """What a self-test did."""

    jobs: int = 0
    calls: int = 0
    refused: dict[int, int] = field(default_factory=dict)
    tables: int = 0
    damages: int = 0


def check_true_cells(job: Job, table: bytes) -> None:
    """Every filled cell holds the truth of the uncut structure."""
    for node in range(job.sizes.nodes):
        for s in job.fragment[node]:
            for k in range(job.sizes.formulas):
                cell = table[job.cell(node, s, k)]
                assert cell == EMPTY or cell == checker.truth(job, k, s)


def check_demand_3(rng: random.Random, pictured: Picture, tally: Tally) -> None:
    """Demand 3 on one job and one list of calls."""
    text = pictured.text()
    job = checker.parse(text)
    table = checker.fresh(text, bytes(rng.randrange(256) for _ in range(job.size())))[1]
    others = (b"", spoilt(rng, pictured), picture(rng).text())
    for one in calls(rng, text, table, rng.randint(0, 25), others):
        tally.calls += 1
        tally.refused[one.answer[0]] = tally.refused.get(one.answer[0], 0) + 1
        if one.answer[0] != 0:
            assert one.table == table and not any(one.answer[2:])
        if one.name == "finish" and one.answer[0] == 0:
            empty = sum(table[c] == EMPTY for c in inside(job))
            assert one.answer[2] == checker.truth(job, job.sizes.formulas - 1, 0)
            assert one.answer[3] <= empty + 1
        table = one.table
        check_true_cells(job, table)
    empty = sum(table[c] == EMPTY for c in inside(job))
    answer, after = checker.finish(text, table)
    assert answer == plain_finish(text, table)[0]
    assert answer[2] == checker.truth(job, job.sizes.formulas - 1, 0)
    assert answer[3] <= empty + 1 and answer[4] == empty
    check_true_cells(job, after)
    assert all(after[c] != EMPTY for c in inside(job))
    # Two cuttings agree; rounds from a fresh table <= t x S + 2.
    here = checker.finish(text, fresh_table(job))[0]
    again = recut(rng, pictured).text()
    there = checker.finish(again, fresh_table(checker.parse(again)))[0]
    assert here[2] == there[2]
    for rounds in (here[3], there[3]):
        assert rounds <= len(job.temporal()) * job.sizes.states + 2


def check_wild(rng: random.Random, text: bytes, tally: Tally) -> None:
    """Any table: step is idempotent and keeps filled cells, a settled table is
    closed at an until, with 0, or at EG or AG, with 1, finish equals plain rounds
    and fills everything."""
    job = checker.parse(text)
    for make_table in WILD:
        tally.tables += 1
        table = make_table(rng, job)
        check_unnamed(text, table)
        node = rng.randrange(job.sizes.nodes)
        answer, after = checker.step(text, table, node)
        assert answer[2] == sum(x != y for x, y in zip(table, after))
        assert all(x == EMPTY or x == y for x, y in zip(table, after))
        for cell, (x, y) in enumerate(zip(table, after)):
            assert x == y or cell in inside(job)
        assert checker.step(text, after, node) == ([0, 0, 0], after)
        got = checker.finish(text, table)
        assert got == plain_finish(text, table)
        assert all(got[1][c] != EMPTY for c in inside(job))
        before = table
        for one in any_calls(rng, text, table, 10):
            if one.name == "close" and one.answer[0] == 0:
                check_close(job, before, one.answer, one.table)
            before = one.table
        table = settled_table(text, table)
        answer, after = checker.close(text, table)
        assert answer[0] in (0, 20)
        if answer[0] == 0:
            check_close(job, table, answer, after)
        assert (answer[0] == 20) == all(table[c] != EMPTY for c in inside(job))
        bad = wrong_length_table(rng, job)
        assert checker.step(text, bad, 0) == ([9, 0, 0], bad)
        bad = bad_table(rng, job)
        assert checker.finish(text, bad) == ([10, 0, 0, 0, 0], bad)


def check_close(job: Job, table: bytes, answer: list[int], after: bytes) -> None:
    """An accepted close: the cells that it filled, all of the subformula told and
    with the value for its kind."""
    _, _, k, count = answer
    closed = {AU: 0, EU: 0, EG: 1, AG: 1}[job.rules[k].kind]
    changed = [cell for cell in range(len(table)) if table[cell] != after[cell]]
    assert len(changed) == count > 0
    for cell in changed:
        assert cell % job.sizes.formulas == k
        assert (table[cell], after[cell]) == (EMPTY, closed)


def check_unnamed(text: bytes, table: bytes) -> None:
    """Look without a node is look at the owner and never 18; there is no owner
    of a state that is not there, and other calls know no node 255."""
    job = checker.parse(text)
    states, formulas = job.sizes.states, job.sizes.formulas
    for s, k in itertools.product(range(states), range(formulas)):
        unnamed = checker.look(text, table, checker.NO_NODE, s, k)
        assert unnamed == checker.look(text, table, job.owner[s], s, k)
        assert unnamed == ([0, 0, table[job.cell(job.owner[s], s, k)]], table)
    for s, k in ((states, 0), (0, formulas)):
        assert checker.look(text, table, checker.NO_NODE, s, k) == ([12, 0, 0], table)
    assert checker.step(text, table, checker.NO_NODE) == ([11, 0, 0], table)
    assert checker.accept(text, table, checker.NO_NODE, 0, 0, 0) == ([11, 0, 0], table)


def check_damages(rng: random.Random, pictured: Picture, tally: Tally) -> None:
    """Every damaged text gives the number and line it was made for."""
    for damage in itertools.chain(damages(rng, pictured), several(rng, pictured)):
        tally.damages += 1
        got = checker.read(damage.text)
        assert got == (damage.number, damage.line, 0, 0, 0, 0), (damage, got)
        shown = checker.line(damage.text, damage.line)
        assert (shown == b"") == (damage.number <= 3), damage
    for broken in flips(rng, pictured.text(), 20):
        tally.damages += 1
        if checker.read(broken)[0] == 0:
            job = checker.parse(broken)
            verdict = checker.finish(broken, fresh_table(job))[0][2]
            assert verdict == checker.truth(job, job.sizes.formulas - 1, 0)


def check_lines(pictured: Picture) -> None:
    """The call line gives back every line."""
    text = pictured.text()
    assert checker.read(text) == (0, 0, *pictured.lines()[0])
    parts = text.split(b"\n")
    for number, part in enumerate(parts[:-1], 1):
        assert checker.line(text, number) == part
    for number in (0, len(parts), len(parts) + 1, 65_535):
        assert checker.line(text, number) == b""


# --------------------------------------------------------------------------
# Rule text
# --------------------------------------------------------------------------


def splits(text: bytes, at: int = 0, spelled: bool = False) -> Iterator[tuple[str, ...]]:
    """Every way to take a text from a place on as tokens with spaces before,
    between and behind, one at least between two of letters or digits; whether
    the token before is such a one is passed."""
    start = at
    while text[at : at + 1] == b" ":
        at += 1
    if at == len(text):
        yield ()
    for token in rule_texts.TOKENS:
        if text.startswith(token.encode(), at):
            if at > start or not (spelled and token[0].isalnum()):
                for rest in splits(text, at + len(token), token.isalnum()):
                    yield token, *rest


def trees(tokens: tuple[str, ...]) -> list[rules.Tree]:
    """Every reading of a list of tokens: a chart of all its parts, each divided
    at every operator, where a part is an operand if it binds tightly enough."""

    @lru_cache(maxsize=None)
    def part(start: int, end: int) -> list[tuple[int, rules.Tree]]:
        """The readings of a part, each with how weakly it binds."""
        first, last = tokens[start], tokens[end - 1]
        found: list[tuple[int, rules.Tree]] = []
        if end - start == 1:
            return [(0, (first,))] if first in rule_texts.ATOMS else []
        if first in rule_texts.PREFIXES:
            found += [(1, (first, f)) for f in operands(start + 1, end, 1)]
        if (first, last) == ("(", ")") and end - start > 2:
            found += [(0, f) for f in operands(start + 1, end - 1, 4)]
        for at in range(start + 1, end - 1):
            word = tokens[at]
            if word in rule_texts.BETWEEN:
                left, right = rule_texts.strengths(word)
                for f in operands(start, at, left):
                    for g in operands(at + 1, end, right):
                        found.append((rule_texts.STRENGTH[word], (word, f, g)))
            if word == "U" and first in rule_texts.UNTILS and last == "]":
                if tokens[start + 1] == "[" and start + 2 < at < end - 2:
                    for f in operands(start + 2, at, 4):
                        for g in operands(at + 1, end - 1, 4):
                            found.append((0, (first, f, g)))
        return found

    def operands(start: int, end: int, weakest: int) -> list[rules.Tree]:
        return [f for strength, f in part(start, end) if strength <= weakest]

    return operands(0, len(tokens), 4) if tokens else []


def check_reading(text: bytes) -> None:
    """A text has one reading where the model has one, and that one."""
    found = [tree for tokens in splits(text) for tree in trees(tokens)]
    reading = rules.tree(text)
    assert found == ([] if reading is None else [reading]), (text, found, reading)


def check_rule(rng: random.Random, tree: rules.Tree) -> None:
    """However it is spelled, a rule is read as it is; and put into a job its
    lines are let by and say the same."""
    for text in rule_texts.spellings(rng, tree):
        assert rules.tree(text) == tree, (text, tree)
    found = rules.lines(tree)
    assert len(set(found)) == len(found)
    if len(found) <= rules.MOST:
        pictured = picture(rng)
        pictured.rules = found
        job = checker.parse(pictured.text())
        assert checker.truths(job)[-1] == rules.holding(job, tree), tree


def check_rule_answer(text: bytes, buffer: bytes) -> None:
    """A refusal changes nothing and tells no lines; the lines are as many as are
    told, and the bytes behind them stay."""
    (number, line, lines), after = rules.rule(text, buffer)
    assert line == 0 and len(after) == len(buffer)
    if number != 0:
        assert lines == 0 and after == buffer
    else:
        assert after[16 * lines :] == buffer[16 * lines :]
        found = [checker.fields(after[16 * k : 16 * k + 16], 3) for k in range(lines)]
        assert written(found) == after[: 16 * lines]


def check_told() -> int:
    """What is told of rule texts by hand; how many there are."""
    told = [*rule_texts.ACCEPTED, *rule_texts.limits()]
    told += [rule_texts.Told(text, 22) for text in rule_texts.REFUSED]
    for text, number, lines in told:
        answer, _ = rules.rule(text, rule_texts.UNEVEN)
        assert answer == [number, 0, lines], (text, number, lines, answer)
        for length in (0, 511, 513):
            other = bytes(length)
            assert rules.rule(text, other) == ([21, 0, 0], other), text
    for text, lines in (
        (b"p0 | p1", [(1, 0, 0), (2, 0, 0), (1, 1, 0), (2, 2, 0), (3, 1, 3), (2, 4, 0)]),
        (b"p0 => p1", [(1, 0, 0), (1, 1, 0), (2, 1, 0), (3, 0, 2), (2, 3, 0)]),
        (b"p0 => p0", [(1, 0, 0), (2, 0, 0), (3, 0, 1), (2, 2, 0)]),
        (b"p2 & p1 & p2", [(1, 2, 0), (1, 1, 0), (3, 0, 1), (3, 2, 0)]),
        (b"!!p15", [(1, 15, 0), (2, 0, 0), (2, 1, 0)]),
        (b"AX EX p1", [(1, 1, 0), (5, 0, 0), (4, 1, 0)]),
        (b"A[p1 U E[p0 U p1]]", [(1, 1, 0), (1, 0, 0), (7, 1, 0), (6, 0, 2)]),
        (b"EG p2", [(1, 2, 0), (8, 0, 0)]),
        (b"AG EG p0", [(1, 0, 0), (8, 0, 0), (9, 1, 0)]),
        (b"EG p0 & AG p1", [(1, 0, 0), (8, 0, 0), (1, 1, 0), (9, 2, 0), (3, 1, 3)]),
    ):
        assert rules.lines(rules.tree(text)) == lines, text
    return len(told)


def check_rule_examples() -> None:
    """The rule of each example as text, put into its job: the same line."""
    for path in sorted(EXAMPLES.glob("*.job")):
        job = path.read_bytes()
        text = path.with_suffix(".rule").read_bytes()
        states, edges, _, nodes = checker.sizes(job)
        found = rules.lines(rules.tree(text.removesuffix(b"\n")))
        first = written_line((states, edges, len(found), nodes))
        again = first + job[21 : 21 + 11 * (states + edges)] + written(found)
        line = path.with_suffix(".line").read_bytes()
        assert checker.verdict_line(again) == line, path


def rule_test(rng: random.Random, count: int) -> None:
    """All of the above about rule text."""
    check_rule_examples()
    texts = [text for text, _, _ in rule_texts.ACCEPTED] + rule_texts.REFUSED
    for length in range(5):
        for tokens in rule_texts.short(length):
            texts += [rule_texts.spaced(tokens), rule_texts.together(tokens)]
    texts += rule_texts.noise(rng, count)
    for _ in range(count):
        tree = rule_texts.some_tree(rng)
        check_rule(rng, tree)
        small = rule_texts.some_tree(rng, 9)
        texts += [rule_texts.spelled(rng, small), *rule_texts.spoilt(rng, small)]
        buffer = rng.randbytes(rng.choice([512, 512, rng.randrange(1024)]))
        check_rule_answer(rule_texts.spelled(rng, tree), buffer)
    for text in texts:
        check_reading(text)
    print(
        f"{check_told()} rule texts as told, {count} rules in jobs, "
        f"{len(texts)} texts read in two ways"
    )


# --------------------------------------------------------------------------
# Pages
# --------------------------------------------------------------------------


def check_pages_told() -> None:
    """Pages worked out by hand: cells that no rule gives, states outside the
    fragment, a label that touches the owner, 32 subformulas; and the questions."""
    edges, rules = [(0, 1), (1, 0), (2, 2)], [(ATOM, 0, 0), (ATOM, 1, 0), (AU, 0, 1)]
    three = Picture(3, [1, 0, 2], [40_000, 7, 1_234], edges, rules)
    table = bytes([0, 1, 2, 1, 2, 0, 2, 2, 2])
    table += bytes([2, 2, 1, 0, 0, 0, 2, 2, 2])
    table += bytes([2, 2, 2, 2, 2, 2, 1, 2, 1])
    for node, cells in enumerate(
        (
            (b"0 1 .", b"1 . 0", b". . ."),
            (b". . 1", b"0 0 0", b". . ."),
            (b". . .", b". . .", b"1 . 1"),
        )
    ):
        page = told_page(
            b"                0 1 2",
            b"    0    140000 " + cells[0],
            b"    1    0    7 " + cells[1],
            b"    2    2 1234 " + cells[2],
        )
        assert pages.lent(three.text(), table, node, bytes(320)) == ([0, 0], page)
    wide = Picture(1, [0], [65_535], [(0, 0)], [(ATOM, 0, 0)] * 32)
    page = told_page(
        b"                0 1 2 3 4 5 6 7 8 91011121314151617181920212223242526272829"
        b"3031",
        b"    0    065535" + b" 0 1 . ." * 8,
    )
    assert pages.lent(wide.text(), bytes([0, 1, 2, 2] * 8), 0, page) == ([0, 0], page)
    text = three.text()
    for node, room, cells, number in (
        (2, 320, table, 0),
        (2, 319, table, 24),
        (3, 319, table, 11),
        (255, 320, table, 11),
        (3, 319, table[:-1] + b"\3", 10),
        (3, 319, table[1:], 9),
    ):
        assert checker.page(text, cells, node, room) == ([number, 0], cells)
    assert checker.page(b"", table, 3, 0) == ([1, 1], table)


def read_back(page: bytes, formulas: int) -> tuple[list[list[int]], bytes]:
    """What a page of so many subformulas says: state, owner and label of each
    state, and the cells."""
    heading, *lines = page.split(b"\n")[:-1]
    assert all(len(line) == 79 for line in [heading, *lines])
    end = 15 + 2 * formulas
    ends = range(17, end + 2, 2)
    assert [int(heading[at - 2 : at]) for at in ends] == list(range(formulas))
    assert not any(line[end:].strip(b" ") for line in [heading, *lines])
    assert heading[:15].strip(b" ") == b""
    assert all(line[at - 2] == 32 for line in lines for at in ends)
    numbers = [checker.fields(line[:15] + b"\n", 3) for line in lines]
    marks = [line[at - 1 : at] for line in lines for at in ends]
    return numbers, bytes(b"01.".index(mark) for mark in marks)


def check_page(rng: random.Random, text: bytes) -> None:
    """Pages say states, owners, labels and the node's cells, all of them and
    nothing else; the call leaves what it should."""
    job = checker.parse(text)
    table = rng.choice(WILD)(rng, job)
    other = bytearray(table)
    for cell in rng.choices(inside(job), k=rng.randrange(3)):
        other[cell] = rng.randrange(3)
    read = b""
    for node in range(job.sizes.nodes):
        page = pages.page(job, table, node)
        numbers, cells = read_back(page, job.sizes.formulas)
        states = range(job.sizes.states)
        assert numbers == [[s, job.owner[s], job.label[s]] for s in states]
        read += cells
        own = slice(job.cell(node, 0, 0), job.cell(node + 1, 0, 0))
        equal = page == pages.page(job, bytes(other), node)
        assert equal == (table[own] == other[own])
        buffer = rng.randbytes(some_room(rng, job))
        answer, after = pages.lent(text, table, node, buffer)
        enough = page_room(job.sizes.states)
        assert answer == ([0, 0] if len(buffer) >= enough else [24, 0])
        assert after == (buffer if answer[0] else page + buffer[enough:])
        for wrong in (job.sizes.nodes, checker.NO_NODE):
            assert pages.lent(text, table, wrong, buffer) == ([11, 0], buffer)
    assert read == table


def check_pages_printed() -> None:
    """What the program prints: by hand for job V, and refusals."""
    text = JOB_V.text()
    for arguments in ((b"0",), (b"1",), (b"1", b"x"), (b"0", b"")):
        assert pages.printed(text, *arguments) == PAGE_V
    for arguments in ((), (b"",), (b"2",), (b"9",), (b"00",), (b"x", b"0")):
        assert pages.printed(text, *arguments) == b"   11    0\n"
        assert pages.printed(text[:-1], *arguments) == b"    3    1\n"
    for name, job, numbers in printed():
        if numbers[0] != 0:
            assert pages.printed(job, b"0") == written_line(numbers[:2]), name


def self_test(seed: int, count: int) -> None:
    """All of the above."""
    rng = random.Random(seed)
    tally = Tally()
    check_printed()
    check_ruled_out()
    check_all_along()
    check_pages_told()
    check_pages_printed()
    for pictured in each_kind():
        check_truth(pictured)
    for i in range(count):
        pictured = tangled(rng, 6, 8, 4) if i % 3 == 2 else picture(rng)
        check_lines(pictured)
        check_demand_3(rng, pictured, tally)
        check_wild(rng, pictured.text(), tally)
        check_page(rng, pictured.text())
        job = checker.parse(pictured.text())
        check_sets(rng, job)
        if i % 10 == 0:
            check_damages(rng, pictured, tally)
        if i % 5 == 0:
            tiny = picture(rng, 4, 4, 2)
            tiny.edges = scattered(rng, len(tiny.owner), rng.randint(1, 6))
            check_truth(tiny)
        tally.jobs += 1
    for _ in range(3):
        large = full(rng)
        check_lines(large)
        check_damages(rng, large, tally)
        text = large.text()
        assert len(text) == checker.LONGEST
        job = checker.parse(text)
        answer = checker.finish(text, fresh_table(job))[0]
        assert answer[2] == checker.truth(job, 31, 0)
    print(
        f"{tally.jobs} jobs, {tally.calls} calls in lists, {tally.tables} wild tables, "
        f"{tally.damages} damaged texts; answers in lists: "
        + ", ".join(f"{n}: {tally.refused[n]}" for n in sorted(tally.refused))
    )
    rule_test(rng, count)


def main() -> None:
    """The program."""
    options = argparse.ArgumentParser(description=__doc__)
    options.add_argument("--seed", type=int, default=1)
    options.add_argument("--count", type=int, default=2000)
    chosen = options.parse_args()
    self_test(chosen.seed, chosen.count)


if __name__ == "__main__":
    main()
