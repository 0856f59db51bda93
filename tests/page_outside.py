"""The program `page` against the model, from outside.

    page_outside.py PROGRAM [--seed N] [--count N]

Runs the program on job texts, for every node of each job, and compares all that it
prints with what the model of pages.py says.  Apart from the model, a page must have
S + 1 lines of 79 columns and byte 10, with `.` at states outside the node's fragment
and the CTL truth on the uncut structure at all others: finish leaves no cell of a
fragment empty.  A crash, a hang, any other output and more bytes read than it may
are differences too.

Always run are the examples, the printed cases, the limits, labels of every width,
every cutting of small structures, damaged texts and those too long under several
nodes, and arguments that name no node.  To these come COUNT draws of two jobs each,
with damages of them.  It fails, too, where no page is printed, none refused under
one of 1 to 8 or 11, or where `.`, `0` or `1` stands on no page.
"""

from __future__ import annotations

import random
import sys
from dataclasses import replace
from typing import Iterator

import checker
import damaged
import faults
import generate
import pages
from checker import ATOM
from outside import EXAMPLES, Case, Comparison, Run, options
from page_cases import PAGE_V, told_page

# --------------------------------------------------------------------------
# The arguments
# --------------------------------------------------------------------------

NODES = [b"%d" % node for node in range(10)]
"""All that may name a node; 8 and 9 never do."""

NAMELESS: list[tuple[bytes, ...]] = [
    (), (b"",), (b"10",), (b"16",), (b"255",), (b"256",), (b"257",), (b"65536",),
    (b"4294967296",), (b"18446744073709551616",), (b"00",), (b"01",), (b"000",),
    (b"+0",), (b"+1",), (b"-0",), (b"-1",), (b" 0",), (b"0 ",), (b" ",), (b"0\n",),
    (b"\n",), (b"0\t",), (b"0.",), (b"0.0",), (b"0x0",), (b"1e0",), (b"0,1",),
    (b"/",), (b":",), (b"x",), (b"o",), (b"zero",), (b"node 0",), (b"-",), (b"--",),
    (b"-h",), (b"--help",), (b"--node=0",), (b"\x01",), (b"\x80",), (b"\xb0",),
    (b"\xb2",), (b"\xff",), (b"\xd9\xa0",), (b"\xef\xbc\x90",), (b"0" * 100_000,),
    (b"x" * 100_000,), (b"", b"0"), (b"x", b"0"), (b"-", b"0"), (b"--", b"0"),
    (b"01", b"0"), (b"", b"", b"0"), (b"",) * 1_000,
]  # fmt: skip
"""First arguments that name no node, some with good ones behind: missing, empty,
too many digits, signs, spaces, the bytes beside the digits and digits of other
alphabets.  Some become a node where they are cut, or where only a part is read."""

BEHIND: list[tuple[bytes, ...]] = [
    (b"0",), (b"1",), (b"",), (b"x",), (b"--help",), (b"1", b"2"), (b"0" * 100_000,),
    (b"1",) * 1_000,
]  # fmt: skip
"""Further arguments, which are not looked at."""


def every_node(name: str, job: generate.Picture) -> Iterator[Case]:
    """The pages of all nodes of a job, and the one after the last."""
    for node in range(job.nodes + 1):
        yield of_node(f"{name}, node {node}", job.text(), node)


def of_node(
    name: str, text: bytes, node: int, told: bytes | None = None, slowly: bool = False
) -> Case:
    """The page of a node, or what else the text comes to."""
    return Case(name, text, told, slowly=slowly, arguments=(b"%d" % node,))


def some_arguments(rng: random.Random) -> tuple[bytes, ...]:
    """A node, or what is none."""
    way = rng.randrange(4)
    return rng.choice(NAMELESS) if way == 0 else (rng.choice(NODES),)


# --------------------------------------------------------------------------
# The cases
# --------------------------------------------------------------------------

PAGE_ONE = told_page(b"                0", b"    0    065535 1")
PAGE_OTHER = told_page(b"                0", b"    0    065535 .")
"""A state with all atoms, owned by the first of two nodes: its page, and that of
the other."""


def told_line(number: int, line: int) -> bytes:
    """What is printed where something is refused."""
    return generate.written_line((number, line))


def named_cases() -> Iterator[Case]:
    """The examples and the printed cases, for every node, and pages that come with
    what they are."""
    for path in sorted(EXAMPLES.glob("*.job")):
        text = path.read_bytes()
        for node in range(checker.sizes(text).nodes + 1):
            yield of_node(f"examples/{path.name}, node {node}", text, node)
        yield of_node(f"examples/{path.name}, slowly", text, 0, slowly=True)
    for name, text, (number, line, *_) in generate.printed():
        for node in range(3):
            told = None if number == 0 else told_line(number, line)
            yield of_node(f"{name}, node {node}", text, node, told)
    one = generate.Picture(2, [0], [65_535], [(0, 0)], [(ATOM, 15, 0)]).text()
    v = generate.JOB_V.text()
    for text, node, told in (
        (v, 0, PAGE_V),
        (v, 1, PAGE_V),
        (one, 0, PAGE_ONE),
        (one, 1, PAGE_OTHER),
    ):
        yield of_node(f"told, node {node}", text, node, told)


def wide_labels(rng: random.Random) -> generate.Picture:
    """A ring of ten states, over eight nodes, with labels of every width."""
    label = [0, 9, 10, 99, 100, 999, 1_000, 9_999, 10_000, 65_535]
    job = generate.picture(rng, len(label), 7, 8, exact=True)
    return replace(job, label=label, edges=generate.ring(len(label)))


def valid_cases(rng: random.Random) -> Iterator[Case]:
    """The limits, every number of subformulas, labels of every width, states
    outside fragments, and every cutting of small structures."""
    for job in generate.limits(rng):
        yield from every_node(f"limits {job.lines()[0]}", job)
    for formulas in range(1, 33):
        job = generate.picture(rng, 2, formulas, 3, exact=True)
        yield from every_node(f"{formulas} subformulas", job)
    for states in (9, 10, 11, 99, 100, 101, 255):
        job = generate.picture(rng, states, 3, 2, exact=True)
        yield from every_node(f"{states} states", job)
    for i in range(4):
        yield from every_node(f"labels {i}", wide_labels(rng))
    for nodes, states in ((2, 3), (3, 3), (8, 1)):
        job = generate.tangled(rng, 3, 9, 2) if states > 1 else generate.picture(rng, 1)
        for cut in generate.every_cutting(job, nodes):
            yield from every_node(f"every cutting {states} {nodes}", cut)
    for job in (
        generate.zigzag(16, 8, 8),
        generate.heavy(12, 4, 8, 3),
        *(generate.cut_ring(kind, 9, 12, True) for kind in checker.SETS),
        *(generate.cut_chain(kind, 9, 12) for kind in checker.SETS),
    ):
        yield from every_node(f"family {job.lines()[0]}", job)


def argument_cases(rng: random.Random) -> Iterator[Case]:
    """All arguments with jobs of few nodes and of all, and with damaged texts,
    where the text is told before the node."""
    few = generate.JOB_V.text()
    all_nodes = generate.picture(rng, 3, 2, 8, exact=True).text()
    for arguments in [*NAMELESS, *((node,) for node in NODES)]:
        name = f"arguments {b' '.join(arguments)[:40]}"
        no_node = told_line(11, 0) if arguments in NAMELESS else None
        for text, told in (
            (few, no_node),
            (all_nodes, no_node),
            (few[:-1], told_line(3, 1)),
            (b"", told_line(1, 1)),
        ):
            yield Case(name, text, told, arguments=arguments)
    for behind in BEHIND:
        for node in (b"0", b"1", b"2"):
            name = f"{len(behind)} arguments behind {node}"
            yield Case(name, few, arguments=(node, *behind))
            yield Case(name, all_nodes, arguments=(node, *behind))


def damage_case(rng: random.Random, damage: damaged.Damage) -> Case:
    """A damaged text, which comes with its line, under any arguments."""
    told = told_line(damage.number, damage.line)
    name = f"damage: {damage.name}, line {damage.line}"
    return Case(name, damage.text, told, arguments=some_arguments(rng))


def damaged_cases(rng: random.Random) -> Iterator[Case]:
    """Every damage of two jobs, a job cut short at every byte, texts longer than
    the program reads, and noise; some with several faults."""
    small = generate.picture(rng, 4, 5, 3, exact=True)
    full = generate.full(rng)
    for job in (generate.picture(rng, 1, 1, 1), small):
        for damage in damaged.damages(rng, job):
            yield damage_case(rng, damage)
    text = small.text()
    for length in range(len(text)):
        name = f"cut to {length} bytes"
        yield Case(name, text[:length], arguments=some_arguments(rng))
    for job in (small, full):
        for more in (1, 2, 100, 1_000_000):
            for arguments in ((b"0",), (b"7",), (b"9",), (b"x",), ()):
                name = f"{more} more, arguments {arguments}"
                text = job.text() + b" " * more
                yield Case(name, text, told_line(3, 1), arguments=arguments)
    for damage in faults.some(rng, faults.several(rng, small), 60):
        yield damage_case(rng, damage)
    for i, text in enumerate(damaged.noise(rng, 20)):
        yield Case(f"noise {i}", text, arguments=some_arguments(rng))


def drawn_cases(rng: random.Random, count: int) -> Iterator[Case]:
    """Small jobs and some larger ones, for every node, and damaged."""
    for i in range(count):
        jobs = [generate.picture(rng), generate.tangled(rng, 12, 16, 8)]
        if i % 10 == 0:
            jobs.append(generate.picture(rng, 40, 32, 8))
        for job in jobs:
            yield from every_node(f"drawn {i}", job)
        job = rng.choice(jobs)
        for text in damaged.flips(rng, job.text(), 1):
            yield Case(f"flipped {i}", text, arguments=some_arguments(rng))
        yield damage_case(rng, faults.some_faults(rng, job))


SEED, COUNT = 1, 100
"""The gate's cases."""


def all_cases(seed: int, count: int) -> Iterator[Case]:
    """Those that are always run, and so many draws."""
    rng = random.Random(seed)
    yield from named_cases()
    yield from valid_cases(rng)
    yield from argument_cases(rng)
    yield from damaged_cases(rng)
    yield from drawn_cases(rng, count)


# --------------------------------------------------------------------------
# The comparison
# --------------------------------------------------------------------------


def fragment(job: checker.Job, node: int) -> set[int]:
    """The node's states and where their edges lead, by the lines of the job."""
    own = {s for s, owner in enumerate(job.owner) if owner == node}
    return own.union(*(job.successors[s] for s in own))


def page_wrong(text: bytes, page: bytes, node: int) -> Iterator[str]:
    """What is wrong with a node's page after finish, apart from the model of it."""
    *lines, rest = page.split(b"\n")
    if rest or [len(line) for line in lines] != [79] * (int(text[:5]) + 1):
        yield "not S + 1 lines of 79 columns and byte 10"
        return
    job = checker.parse(text)
    inside = fragment(job, node)
    for k, true_at in enumerate(checker.truths(job)):
        for s, line in enumerate(lines[1:]):
            truth = b"%d" % (s in true_at)
            if line[16 + 2 * k : 17 + 2 * k] != (truth if s in inside else b"."):
                told = "the truth" if s in inside else "empty outside the fragment"
                yield f"subformula {k} at state {s} is not {told}"


class Pages(Comparison):
    """The program `page`.  Its own buffer is long enough."""

    wanted = (*range(9), 11)

    def __init__(self, program: str) -> None:
        super().__init__(program)
        self.jobs: set[bytes] = set()
        self.marks: set[int] = set()

    def judged(self, case: Case) -> tuple[bytes, bytes, list[str]]:
        """What both print, and what is wrong with a page besides."""
        at_work = Run(self.program, case)
        told = pages.printed(case.text, *case.arguments)
        out, wrong = at_work.end(checker.LONGEST + 1)
        is_page = len(told) > len(told_line(0, 0))
        if is_page:
            wrong += page_wrong(case.text, out, int(case.arguments[0]))
            self.jobs.add(case.text)
            for line in told.splitlines()[1:]:
                self.marks.update(line[15:])
        self.numbers[0 if is_page else int(told[:5])] += 1
        return told, out, wrong

    def summary(self) -> str:
        """One line."""
        return (
            f"{sum(self.numbers.values())} runs of page: {self.count()}; "
            f"pages of {len(self.jobs)} jobs; {len(self.differences)} differ"
        )

    def missing(self) -> Iterator[str]:
        """Every mark, too."""
        yield from super().missing()
        for mark in b".01":
            if mark not in self.marks:
                yield f"no {mark:c} stood on a page"


def main() -> int:
    """The program."""
    chosen = options(__doc__, COUNT)
    return Pages(chosen.program).run(all_cases(chosen.seed, chosen.count))


if __name__ == "__main__":
    sys.exit(main())
