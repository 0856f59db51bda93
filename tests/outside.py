"""The program `verdict` against the model, from outside.

    outside.py PROGRAM [--seed N] [--count N]

Runs the program on job texts and compares each whole line with the model's.
The model plays document 01's rounds, and decides the verdict once more by CTL
truth on the uncut structure; where the two differ, that is a difference too.
So are a crash, a hang, any other output, more bytes read than document 01
allows, and two cuttings of one structure with two verdicts.  It fails, too, where
no job is accepted, none refused under one of 1 to 8, or where rules of some kind
have not come out both ways.

Always run are the examples, the printed cases, every kind over a small structure,
the limits, the families that take most rounds, every damage of a few jobs, and
texts with several faults at once.
To these come COUNT draws of four jobs each, with damages and cuttings of them.
"""

from __future__ import annotations

import argparse
import collections
import contextlib
import itertools
import os
import pathlib
import random
import subprocess
import sys
import tempfile
import time
from dataclasses import dataclass
from typing import Iterable, Iterator

import checker
import damaged
import faults
import generate

EXAMPLES = pathlib.Path(__file__).parents[1] / "examples"

SECONDS = 60
"""How long the program may take for one job; the dearest here takes some 3."""

HUNG = f"no end in {SECONDS} seconds"

PLAIN = 2_000
"""Tables of up to so many cells are also played without any shortcut."""

FAULTY = 60
"""How many texts with several faults, and edge lists, are made of each job."""

SHOWN = 3
"""How many differences are printed in full, those with the shortest texts."""


@dataclass
class Case:
    """A text for the program."""

    name: str
    text: bytes
    told: bytes | None = None  # all that the maker of the text expects to be printed
    structure: str = ""  # cases that share it are cuttings of one structure
    slowly: bool = False  # handed over in pieces
    arguments: tuple[bytes, ...] = ()


@dataclass
class Difference:
    """A case where something is wrong, with what the model and the program print."""

    case: Case
    model: bytes
    program: bytes
    wrong: list[str]


# --------------------------------------------------------------------------
# The cases
# --------------------------------------------------------------------------


def named_cases() -> Iterator[Case]:
    """Texts that come with their lines."""
    for path in sorted(EXAMPLES.glob("*.job")):
        told = path.with_suffix(".line").read_bytes()
        for slowly in (False, True):
            yield Case(f"examples/{path.name}", path.read_bytes(), told, "", slowly)
    for name, text, numbers in generate.printed():
        yield Case(name, text, generate.written_line(numbers))
    for name, job, numbers in generate.dear():
        yield Case(name, job.text(), generate.written_line((0, 0, *numbers)))


def valid_cases(rng: random.Random) -> Iterator[Case]:
    """The limits, every kind over a small structure, the families in other sizes
    and numberings, and every cutting of small structures."""
    for job in generate.each_kind():
        yield Case(f"kind {job.rules[-1][0]}, labels {job.label}", job.text())
    for job in generate.limits(rng):
        yield Case(f"limits {job.lines()[0]}", job.text())
    for job in (
        generate.zigzag(3, 4, 2),
        generate.zigzag(45, 32, 8),
        generate.heavy(12, 4, 8, 3),
        generate.heavy(64, 20, 32, 8),
        generate.cut_chain(checker.AU, 2, 3),
        generate.cut_chain(checker.EG, 5, 4),
        generate.cut_ring(checker.EU, 8, 32, True),
        generate.cut_ring(checker.AG, 8, 32, True),
    ):
        for number in range(3):
            yield Case(f"family {job.lines()[0]} numbering {number}", job.text())
            job = generate.renumbered(rng, job)
    for nodes, states in ((2, 4), (3, 4), (4, 3)):
        for make in (generate.picture, generate.tangled):
            job = make(rng, states, 9, nodes)
            for cut in generate.every_cutting(job, nodes):
                name = f"every cutting, {make.__name__} {states} {nodes}"
                yield Case(name, cut.text(), structure=name)


def damage_case(damage: damaged.Damage) -> Case:
    """A damaged text, which comes with its line."""
    told = generate.written_line((damage.number, damage.line, 0, 0, 0))
    return Case(f"damage: {damage.name}, line {damage.line}", damage.text, told)


def damaged_cases(rng: random.Random) -> Iterator[Case]:
    """Every damage of jobs of four sizes, a job cut short at every byte and with
    every bit turned over, texts longer than the program reads, and noise."""
    small = generate.picture(rng, 5, 6, 3, exact=True)
    sizes = (
        generate.picture(rng, 1, 1, 1),
        small,
        generate.picture(rng, 40, 12, 8, exact=True),
        generate.full(rng),
    )
    found = [damage for job in sizes for damage in damaged.damages(rng, job)]
    yield from map(damage_case, [*found, *damaged.malformed(rng, small)])
    text = small.text()
    for length in range(len(text)):
        yield Case(f"cut to {length} bytes", text[:length])
    text = generate.JOB_V.text()
    for at in range(len(text)):
        for bit in range(8):
            yield Case(f"byte {at}, bit {bit}", damaged.flipped(text, at, bit))
    text = sizes[-1].text()
    for more in (1, 2, 1_000_000):
        yield Case(f"longest and {more} more", text + b" " * more)
    for i, text in enumerate(damaged.noise(rng, 25)):
        yield Case(f"noise {i}", text)


def faulty_cases(rng: random.Random) -> Iterator[Case]:
    """Texts with several faults at once, and edge lists with several wrong lines:
    calls.py has more of them read."""
    for job in faults.shapes(rng):
        found = faults.several(rng, job)
        yield from map(damage_case, faults.some(rng, found, FAULTY))
        for spoilt in faults.some(rng, faults.edge_lists(rng, job), FAULTY):
            yield Case(f"edge list of {job.lines()[0]}", spoilt.text())
    for spoilt in faults.some(rng, faults.short_lists(), 4 * FAULTY):
        yield Case("short edge list", spoilt.text())


def drawn_cases(rng: random.Random, count: int) -> Iterator[Case]:
    """Small jobs, as they are and damaged, and cuttings of larger ones."""
    for i in range(count):
        for job in (generate.picture(rng), generate.tangled(rng, 12, 16, 8)):
            yield Case(f"drawn {i}", job.text())
            for text in damaged.flips(rng, job.text(), 1):
                yield Case(f"flipped {i}", text)
            for text in damaged.scribbles(rng, job, 1):
                yield Case(f"scribbled {i}", text)
            yield damage_case(faults.some_faults(rng, job))
            yield Case(f"edge list {i}", faults.some_edge_list(rng, job).text())
        larger = [generate.tangled(rng, 20, 32, 8), generate.picture(rng, 40, 20, 8)]
        if i % 10 == 0:
            larger.append(generate.picture(rng, 256, 32, 8))
        for j, job in enumerate(larger):
            name = f"cuttings {i}.{j} of {job.lines()[0]}"
            for cut in generate.cuttings(rng, job, 2):
                yield Case(name, cut.text(), structure=name)


# --------------------------------------------------------------------------
# The comparison
# --------------------------------------------------------------------------


def model_wrong(text: bytes, line: bytes) -> Iterator[str]:
    """Where the model's ways to one line differ."""
    if checker.read(text)[0] != 0:
        return
    job = checker.parse(text)
    truth = checker.truth(job, job.sizes.formulas - 1, 0)
    if verdict(line) != b"%5d" % truth:
        yield f"the verdict on the uncut structure is {truth:d}"
    if job.size() <= PLAIN:
        table = bytearray([checker.EMPTY]) * job.size()
        numbers = checker.do_rounds(job, table, lambda: checker.plain_round(job, table))
        if line != generate.written_line((0, 0, *numbers)):
            yield f"plain rounds give {numbers}"


def verdict(line: bytes) -> bytes:
    """The verdict of a line."""
    return line[10:15]


class Run:
    """A program at work on a text: a file, or a pipe where it comes slowly."""

    def __init__(self, program: str, case: Case) -> None:
        self.file = tempfile.TemporaryFile()
        self.file.write(case.text)
        self.file.seek(0)
        pipe = subprocess.PIPE
        self.process = subprocess.Popen(
            [program, *case.arguments],
            stdin=pipe if case.slowly else self.file,
            stdout=pipe,
            stderr=pipe,
        )
        if case.slowly:
            self.feed(case.text)

    def feed(self, text: bytes) -> None:
        """Hand the text over in pieces."""
        with contextlib.suppress(BrokenPipeError):
            for at in range(0, len(text), 50):
                self.process.stdin.write(text[at : at + 50])
                self.process.stdin.flush()
                time.sleep(0.01)

    def end(self, most: int) -> tuple[bytes, list[str]]:
        """What the program printed, and what else is wrong with its run; it may
        read so many bytes at most."""
        with self.file, self.process:
            try:
                out, error = self.process.communicate(timeout=SECONDS)
            except subprocess.TimeoutExpired:
                self.process.kill()
                return b"", [HUNG]
            # The program read from our file, so its place there is ours too.
            taken = os.lseek(self.file.fileno(), 0, os.SEEK_CUR)
        wrong = []
        if self.process.returncode != 0:
            wrong.append(f"exit status {self.process.returncode}")
        if error:
            wrong.append(f"standard error {error[:200]!r}")
        if taken > most:
            wrong.append(f"{taken} bytes read")
        return out, wrong


class Comparison:
    """What was run, and the differences found.  A program has its own way to
    judge a case, and its own summary."""

    wanted: Iterable[int]
    """The numbers that the program can answer."""

    def __init__(self, program: str) -> None:
        self.program = program
        self.numbers: collections.Counter[int] = collections.Counter()
        self.differences: list[Difference] = []

    def compare(self, case: Case) -> bool:
        """Run one case; False if the program hung."""
        model, out, wrong = self.judged(case)
        if out != model:
            wrong.append("another output")
        if case.told not in (None, model):
            wrong.append(f"the text was made for {case.told!r}")
        if wrong:
            self.differences.append(Difference(case, model, out, wrong))
        return HUNG not in wrong

    def judged(self, case: Case) -> tuple[bytes, bytes, list[str]]:
        """What the model and the program print, and what else is wrong."""
        raise NotImplementedError

    def count(self) -> str:
        """How many were accepted, and how many refused with each number."""
        valid = self.numbers[0]
        refused = {n: self.numbers[n] for n in sorted(self.numbers) if n != 0}
        told = ", ".join(f"{n}: {times}" for n, times in refused.items())
        return f"{valid} valid, {sum(refused.values())} refused ({told})"

    def summary(self) -> str:
        """One line."""
        raise NotImplementedError

    def missing(self) -> Iterator[str]:
        """What should have come and never did."""
        for number in self.wanted:
            if self.numbers[number] == 0:
                told = f"refused with {number}" if number else "accepted"
                yield f"no text was {told}"

    def show(self) -> None:
        """Print the differences with the shortest texts."""
        self.differences.sort(key=lambda difference: len(difference.case.text))
        for difference in self.differences[:SHOWN]:
            print(f"DIFFERS: {difference.case.name}: {'; '.join(difference.wrong)}")
            for argument in difference.case.arguments[:SHOWN]:
                print("    argument", argument[:80])
            for part in difference.case.text.splitlines(keepends=True):
                print("   ", part)
            print("model:  ", difference.model)
            print("program:", difference.program)

    def run(self, cases: Iterable[Case]) -> int:
        """Run all cases and print what was found; the exit status."""
        began = time.time()
        for case in cases:
            if not self.compare(case):
                break
        self.show()
        print(f"{self.summary()}; {time.time() - began:.0f} s")
        missing = list(self.missing())
        for what in missing:
            print(f"WRONG: {what}")
        return 1 if self.differences or missing else 0


class Verdicts(Comparison):
    """The program `verdict`."""

    wanted = range(9)

    def __init__(self, program: str) -> None:
        super().__init__(program)
        self.verdicts: dict[str, bytes] = {}
        self.cuttings = 0
        self.judged_kinds: set[tuple[int, bytes]] = set()  # the whole rule's, verdict

    def judged(self, case: Case) -> tuple[bytes, bytes, list[str]]:
        """The lines of both, and where another cutting or another way of the
        model's gives another verdict."""
        at_work = Run(self.program, case)
        line = checker.verdict_line(case.text)
        out, wrong = at_work.end(checker.LONGEST + 1)
        wrong += model_wrong(case.text, line)
        if case.structure:
            self.cuttings += 1
            first = self.verdicts.setdefault(case.structure, verdict(out))
            if verdict(out) != first:
                wrong.append("another cutting has another verdict")
        number = checker.read(case.text)[0]
        self.numbers[number] += 1
        if number == 0:
            whole = checker.parse(case.text).rules[-1]
            self.judged_kinds.add((whole.kind, verdict(line)))
        return line, out, wrong

    def missing(self) -> Iterator[str]:
        """Verdicts on rules of each kind, too."""
        yield from super().missing()
        for kind in checker.KINDS:
            for value in (0, 1):
                if (kind, b"%5d" % value) not in self.judged_kinds:
                    yield f"no rule of kind {kind} came out {value}"

    def summary(self) -> str:
        """One line."""
        return (
            f"{sum(self.numbers.values())} jobs: {self.count()}; "
            f"{self.cuttings} cuttings of {len(self.verdicts)} structures; "
            f"{len(self.differences)} differ"
        )


def options(told: str, count: int) -> argparse.Namespace:
    """The program's path, a seed and a count."""
    found = argparse.ArgumentParser(description=told)
    found.add_argument("program")
    found.add_argument("--seed", type=int, default=1)
    found.add_argument("--count", type=int, default=count)
    return found.parse_args()


def main() -> int:
    """The program."""
    chosen = options(__doc__, 100)
    rng = random.Random(chosen.seed)
    cases = itertools.chain(
        named_cases(),
        valid_cases(rng),
        damaged_cases(rng),
        faulty_cases(rng),
        drawn_cases(rng, chosen.count),
    )
    return Verdicts(chosen.program).run(cases)


if __name__ == "__main__":
    sys.exit(main())
