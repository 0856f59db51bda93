"""The programs `verdict` and `rule` and the library's `selahmur_read` and
`selahmur_page`, each beside a plain, unverified C program.

    run.py [PROGRAM ...] [--runs N] [--quick]

Every text goes to both programs; what they print has to be equal.  A row has
the best time of N runs of each, taken in turns, starting the process and reading
included, and the instructions that callgrind counts (not with --quick).

For jobs the last column has the growth: how many times the instructions (or the
time) that `verdict` took for the family's job before, which is half or a quarter
as large.  For rule text, instructions are those above what an empty line takes,
since starting the process takes more than reading most texts; the last column
has those of `rule` for a byte.

For reading and pages alone, the library `libselahmur.a` is the PROGRAM.  A row has
what one call of `selahmur_read` takes, beside the reader of the plain program, or
of `selahmur_page` on a fresh table, beside a plain one above that reader: the cost
of many calls in one process, above that of one, for each of them.

A PROGRAM is told by the name of its file; without any, all run that rt writes: by
`rt run` in crates/verdict and crates/rule, and by `rt lib` in crates/selahmur.
"""

from __future__ import annotations

import argparse
import functools
import pathlib
import random
import re
import subprocess
import sys
import tempfile
import time
from dataclasses import replace
from typing import Iterator

ROOT = pathlib.Path(__file__).parents[1]
sys.path.insert(0, str(ROOT / "tests"))

import checker  # noqa: E402
import damaged  # noqa: E402
import generate  # noqa: E402
import rule_texts  # noqa: E402


def jobs() -> Iterator[tuple[str, generate.Picture]]:
    """Typical jobs, then the dear families, each from small to full size."""
    rng = random.Random(1)
    for states in (16, 64, 256):
        rules = generate.rules(rng, 32)
        for family, pairs in (
            ("random", generate.scattered(rng, states, min(2048, 8 * states))),
            ("chain", generate.chain(states)),
            ("ring", generate.ring(states)),
            ("dense", generate.dense(min(states, 45))),
        ):
            size = 1 + max(max(pair) for pair in pairs)
            owner = generate.owners(rng, size, 8)
            label = generate.labels(rng, size)
            yield family, generate.Picture(8, owner, label, pairs, rules)
    for nodes in (2, 8):
        for states in (64, 128, 256):
            yield f"zigzag, {nodes} nodes", generate.zigzag(states, 32, nodes)
    for nodes in (3, 8):
        for states in (64, 128, 256):
            job = generate.heavy(states, states * 15 // 32, 32, nodes)
            yield f"heavy, {nodes} nodes", job
        for hanging in (60, 160):
            job = generate.heavy(256, hanging, 32, nodes)
            yield f"heavy, line {hanging}, {nodes} nodes", job
    for states in (64, 128, 256):
        yield "cut chain", generate.cut_chain(checker.AU, states, 32)
    for told, kind in (("", checker.EU), (", EG", checker.EG), (", AG", checker.AG)):
        for states in (64, 128, 256):
            yield f"cut ring{told}", generate.cut_ring(kind, states, 32, False)


def chained(word: str, count: int) -> bytes:
    """So many atoms, p0 to p9 in turns, with the word between them."""
    return word.join(rule_texts.ATOMS[i % 10] for i in range(count)).encode()


def rules() -> Iterator[tuple[str, bytes]]:
    """Rules as they are typed, then texts of the greatest length and above."""
    yield "`A[p0 U p1]`", b"A[p0 U p1]"
    yield "the README's", b"AX (p0 | !p1) => E[p2 U p3]"
    yield "32 lines: 32 p0, `&`", rule_texts.chain("&", 32)
    yield "510 `!`, p0", rule_texts.nested("!", "", 510)
    yield "512 `!`", b"!" * 512
    yield "p0 in 255 brackets", rule_texts.nested("(", ")", 255)
    yield "512 `(`", b"(" * 512
    yield "p0 to p9, `&`", chained("&", 171)
    yield "p0 to p9, `\\|`", chained("|", 171)
    yield "33 `!`, p0, 159 `\\|p1`", b"!" * 33 + b"p0" + b"|p1" * 159
    yield "p0 to p9, `=>`", chained("=>", 128)
    yield "90 p0 to p9, `=>`, spaces", rule_texts.filled(chained("=>", 90), 512)
    yield "63 nested `A[p0 U`", rule_texts.nested("A[p0 U ", "]", 63)
    yield "170 `AG`, p0", rule_texts.nested("AG ", "", 170)
    yield "p0, 510 spaces", rule_texts.filled(b"p0", 512)
    yield "514 bytes of nonsense", random.Random(1).randbytes(514)


def sized() -> Iterator[tuple[str, bytes]]:
    """Jobs of full size, of a middle one, and an example."""
    rng = random.Random(1)
    yield "full size", generate.full(rng).text()
    middle = generate.picture(rng, 64, 32, 8, exact=True)
    edges = generate.scattered(rng, 64, 512)
    yield "64 states, 512 edges", replace(middle, edges=edges).text()
    yield "examples/menu.job", (ROOT / "examples/menu.job").read_bytes()


def readings() -> Iterator[tuple[str, bytes]]:
    """Jobs that are accepted, then those of full size that are refused: late,
    early, and where no line by itself is wrong."""
    rng = random.Random(1)
    job = generate.full(rng)
    text, sizes = job.text(), checker.Sizes(*job.lines()[0])
    first_edge = 2 + sizes.states
    last_edge, last = first_edge + sizes.edges - 1, len(job.lines())

    def put(at: int, n: int, new: bytes) -> bytes:
        return damaged.with_field(text, sizes, at, n, new)

    yield from sized()
    yield "last edge line malformed", put(last_edge, 1, b"    -")
    yield "last line malformed", put(last, 2, b"    -")
    yield "last edge to no state", put(last_edge, 1, b"  256")
    yield "first edge to no state", put(first_edge, 1, b"  256")
    far = [(99_999, 99_999)] * sizes.edges
    yield "ends of five digits", replace(job, edges=far).text()
    edges = generate.scattered(rng, sizes.states - 1, sizes.edges)
    yield "last state without an edge", replace(job, edges=edges).text()
    yield "last line of no kind", put(last, 0, b"    0")


def compiled(program: str, source: str, *arguments: str) -> str:
    """Have gcc make a program of a source here."""
    command = ["gcc", "-O3", "-Wall", "-Wextra", "-I", str(ROOT / "include")]
    made = [str(ROOT / "bench" / source), *arguments, "-o", program]
    subprocess.run([*command, *made], check=True)
    return program


def run(command: list[str], text: pathlib.Path) -> tuple[bytes, float]:
    """What the command prints, and its time."""
    with text.open("rb") as job:
        began = time.perf_counter()
        out = subprocess.run(command, stdin=job, stdout=subprocess.PIPE, check=True)
        return out.stdout, time.perf_counter() - began


def instructions(command: list[str], text: pathlib.Path) -> int:
    """How many instructions the command takes."""
    counting = ["valgrind", "--tool=callgrind", "--callgrind-out-file=/dev/null"]
    with text.open("rb") as job:
        said = subprocess.run(
            [*counting, *command],
            stdin=job,
            stdout=subprocess.DEVNULL,
            stderr=subprocess.PIPE,
            text=True,
            check=True,
        ).stderr
    found = re.search(r"Collected : (\d+)", said)
    assert found, said
    return int(found[1])


def above(costs: list[float], start: list[float]) -> list[float]:
    """The costs of both programs above others."""
    return [cost - least for cost, least in zip(costs, start)]


def compared(costs: list[float]) -> list[str]:
    """The plain program's cost, the other's, and their ratio."""
    ratio = f"{costs[1] / costs[0]:.2f}" if costs[0] > 0 else ""
    return [*(f"{c:.1f}" for c in costs), ratio]


class Table:
    """A program beside a plain one: the rows, printed as they come."""

    program: str  # where rt writes it
    source: str
    columns: list[str]
    last: str
    clock = "ms", 1e3
    unit: tuple[str, float]

    def __init__(self, program: str, folder: str, runs: int, quick: bool) -> None:
        self.programs = self.made(program, folder)
        self.text = pathlib.Path(folder, "text")
        self.runs = runs
        self.quick = quick

    def made(self, program: str, folder: str) -> list[str]:
        """The plain program, and the one beside it."""
        return [compiled(f"{folder}/plain", self.source), program]

    def texts(self) -> Iterator[tuple[str, bytes]]:
        """The texts, each with the name of its family."""
        raise NotImplementedError

    def told(self, text: bytes, printed: bytes) -> list[str]:
        """What the row tells of a text besides its family."""
        raise NotImplementedError

    def closing(self, family: str, text: bytes, cost: float) -> str:
        """The row's last cell."""
        raise NotImplementedError

    @staticmethod
    def put(cells: list[str]) -> None:
        """Print a row."""
        print(f"| {' | '.join(cells)} |", flush=True)

    def put_head(self) -> None:
        """Print the first two rows."""
        names = ["plain", pathlib.Path(self.programs[1]).name]
        clock = self.clock[0]
        head = [*self.columns, *(f"{name} {clock}" for name in names), "ratio"]
        if not self.quick:
            head += [*(f"{name} {self.unit[0]} instr." for name in names), "ratio"]
        self.put([*head, self.last])
        self.put(["---"] * (len(head) + 1))

    def commands(self, text: bytes, arguments: tuple[str, ...]) -> list[list[str]]:
        """How both programs are started, once the text is in its place."""
        self.text.write_bytes(text)
        return [[program, *arguments] for program in self.programs]

    def best(self, text: bytes, *arguments: str) -> tuple[set[bytes], list[float]]:
        """What is printed, and the best time of both programs."""
        commands = self.commands(text, arguments)
        taken = [[run(c, self.text) for c in commands] for _ in range(self.runs)]
        times = [self.clock[1] * min(pair[i][1] for pair in taken) for i in range(2)]
        return {out for pair in taken for out, _ in pair}, times

    def total(self, text: bytes, *arguments: str) -> list[float]:
        """The instructions of both programs."""
        commands = self.commands(text, arguments)
        return [instructions(c, self.text) / self.unit[1] for c in commands]

    def timed(self, text: bytes) -> tuple[set[bytes], list[float]]:
        """What is printed, and the times of the row."""
        return self.best(text)

    def counted(self, text: bytes) -> list[float]:
        """The instructions of the row."""
        return self.total(text)

    def add(self, family: str, text: bytes) -> bool:
        """Run a text and print its row; False if the programs differ."""
        printed, costs = self.timed(text)
        if len(printed) != 1:
            print(f"{family}, {len(text)} bytes: what is printed differs: {printed}")
            return False
        cells = [family, *self.told(text, printed.pop()), *compared(costs)]
        if not self.quick:
            costs = self.counted(text)
            cells += compared(costs)
        self.put([*cells, self.closing(family, text, costs[1])])
        return True

    def run(self) -> bool:
        """Print the whole table, up to a text where the programs differ."""
        self.put_head()
        return all(self.add(family, text) for family, text in self.texts())


class Jobs(Table):
    """The program `verdict`."""

    program = "crates/verdict/out/verdict"
    source = "plain.c"
    columns = ["job", "states", "rounds"]
    last = "growth"
    unit = "M", 1e6

    def __init__(self, program: str, folder: str, runs: int, quick: bool) -> None:
        super().__init__(program, folder, runs, quick)
        self.before: dict[str, float] = {}

    def texts(self) -> Iterator[tuple[str, bytes]]:
        for family, job in jobs():
            yield family, job.text()

    def told(self, text: bytes, printed: bytes) -> list[str]:
        """The states and the rounds."""
        return [str(int(text[:5])), str(int(printed[15:20]))]

    def closing(self, family: str, text: bytes, cost: float) -> str:
        """How many times the cost of the family's job before."""
        grown = f"{cost / self.before[family]:.1f}" if family in self.before else ""
        self.before[family] = cost
        return grown


class Texts(Table):
    """What is measured by the bytes of a text, and prints two numbers first."""

    last = "a byte"
    unit = "k", 1e3

    def told(self, text: bytes, printed: bytes) -> list[str]:
        """The bytes and the two numbers."""
        return [str(len(text)), str(int(printed[:5])), str(int(printed[5:10]))]

    def closing(self, family: str, text: bytes, cost: float) -> str:
        """The instructions for a byte."""
        return "" if self.quick else f"{1000 * cost / len(text):.0f}"


class Rules(Texts):
    """The program `rule`."""

    program = "crates/rule/out/rule"
    source = "plain_rule.c"
    columns = ["rule text", "bytes", "refusal", "lines"]

    @functools.cached_property
    def start(self) -> list[float]:
        """The instructions for an empty line."""
        return self.total(b"\n")

    def texts(self) -> Iterator[tuple[str, bytes]]:
        return rules()

    def counted(self, text: bytes) -> list[float]:
        """The instructions above these."""
        return above(self.total(text), self.start)


class Calls(Texts):
    """A call of the library, many times in one process."""

    program = "crates/selahmur/out/libselahmur.a"
    function: str
    clock = "µs", 1e6
    timed_bytes = 20_000_000  # enough calls that starting a process is no matter
    counted_calls = 10

    def made(self, program: str, folder: str) -> list[str]:
        """The plain call and the library's, each below the same driver."""
        plain = compiled(f"{folder}/plain", self.source, "-DPLAIN")
        return [plain, compiled(f"{folder}/{self.function}", self.source, program)]

    def timed(self, text: bytes) -> tuple[set[bytes], list[float]]:
        """The time of one call, without the start of the process."""
        calls = self.timed_bytes // len(text)
        printed, once = self.best(text, "1")
        again, more = self.best(text, str(1 + calls))
        return printed | again, [cost / calls for cost in above(more, once)]

    def counted(self, text: bytes) -> list[float]:
        """The instructions of one call."""
        calls = self.counted_calls
        once, more = self.total(text, "1"), self.total(text, str(1 + calls))
        return [cost / calls for cost in above(more, once)]


class Reading(Calls):
    """The library's `selahmur_read`."""

    source = "reading.c"
    function = "selahmur_read"
    columns = ["reading", "bytes", "refusal", "line"]

    def texts(self) -> Iterator[tuple[str, bytes]]:
        return readings()


class Paging(Calls):
    """The library's `selahmur_page`, on a fresh table."""

    source = "paging.c"
    function = "selahmur_page"
    columns = ["page", "bytes", "refusal", "line"]
    timed_bytes = 5_000_000

    def texts(self) -> Iterator[tuple[str, bytes]]:
        return sized()


TABLES = (Jobs, Rules, Reading, Paging)


def measured(program: str) -> list[type[Table]]:
    """The tables of a program, by its name."""
    name = pathlib.Path(program).name
    return [table for table in TABLES if pathlib.Path(table.program).name == name]


def main() -> int:
    """The program."""
    options = argparse.ArgumentParser(description=__doc__)
    here = list(dict.fromkeys(str(ROOT / table.program) for table in TABLES))
    options.add_argument("programs", nargs="*", default=here)
    options.add_argument("--runs", type=int, default=5)
    options.add_argument("--quick", action="store_true")
    chosen = options.parse_args()
    for program in chosen.programs:
        if not measured(program):
            options.error(f"{program} is none of {', '.join(map(str, here))}")
        for table in measured(program):
            with tempfile.TemporaryDirectory() as folder:
                if not table(program, folder, chosen.runs, chosen.quick).run():
                    return 1
            print()
    return 0


if __name__ == "__main__":
    sys.exit(main())
