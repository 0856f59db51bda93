"""The compiled calls against the model, through the library for C.

    calls.py ARCHIVE [--seed N] [--count N]
    calls.py ARCHIVE --replay CASE

ARCHIVE is crates/selahmur/out/libselahmur.a.  Makes lists of calls through the
functions of include/selahmur.h, and after every call compares every number of
the answer and every byte of the table with the model's.  The text has to stay,
and so have the bytes around text, table and answer, and the answer's array
behind the last number.  That array is too short, just long enough or longer.
Where `rule` is called, the table is the buffer that is lent to it; `page` is lent
a buffer besides, of which every byte is compared too.

A list is a job and a table on which it goes on.  Honest lists play the workers
from a fresh table to a full one, with messages that come late, twice, or after
the step that they would have spared, and pages printed in between.  Others start
from any table.  In all of them come damaged texts, other jobs' texts, tables of a
wrong length or with wrong bytes, buffers that are too short for a page, numbers
out of range, and rule texts, in the grammar and not.
Each of COUNT draws is some lists of small jobs and some rules; the jobs at the
limits, texts with several faults at once, every rule text of up to four tokens
and the cases on which compare.py has the definitions computed come besides.

It counts too, and fails where a call is never accepted, where a number that a
call can refuse with never comes, where no message or no close is ever about a kind
that it can be about, or where some mark is on no page.  The worked examples are
compiled with the header: examples/service.c has to print what the model says of
the same calls, with the page of any node, and examples/rule.c the CTL truth of a
rule that is typed.
"""

from __future__ import annotations

import argparse
import base64
import collections
import ctypes
import itertools
import json
import mmap
import os
import pathlib
import random
import re
import struct
import subprocess
import sys
import tempfile
import time
import traceback
import zlib
from dataclasses import dataclass, replace
from typing import Iterator

import checker
import damaged
import faults
import generate
import page_cases
import pages
import rule_texts
import rules
import tables
import trials
from checker import EMPTY

ROOT = pathlib.Path(__file__).parents[1]
HEADER = ROOT / "include" / "selahmur.h"
EXAMPLES = ROOT / "examples"

SECONDS = 60
"""How long the library may take for one call."""

BETWEEN = 600
"""How long the model and the generators may take between two calls."""

SHOWN = 3
"""How many differences are printed in full, those with the shortest texts."""

FAULTY = 60
"""How many texts with several faults, and edge lists, are made of a large job."""

NUMBERS = {"read": 0, "line": 1, **tables.NUMBERS, "page": 1, "rule": 0}
"""How many numbers each call takes; page is lent a buffer behind its own."""

TEXT_ALONE = ("read", "line")
"""The calls that are lent a text and nothing else."""

TEXT_QUESTIONS = [0, 1, 2, 3, 4, 5, 6, 7, 8]
QUESTIONS = {
    "read": TEXT_QUESTIONS,
    "fresh": [*TEXT_QUESTIONS, 9],
    "step": [*TEXT_QUESTIONS, 9, 10, 11],
    "offer": [*TEXT_QUESTIONS, 9, 10, 12, 13, 14],
    "accept": [*TEXT_QUESTIONS, 9, 10, 11, 12, 13, 15, 16, 17],
    "look": [*TEXT_QUESTIONS, 9, 10, 11, 12, 18],
    "close": [*TEXT_QUESTIONS, 9, 10, 19, 20],
    "finish": [*TEXT_QUESTIONS, 9, 10],
    "page": [*TEXT_QUESTIONS, 9, 10, 11, 24],
    "rule": [0, 21, 22, 23],
}
"""The numbers that each call can give ("Read puts 1 to 8; ...")."""

SAID = {
    "accept": ("fills", 2),
    "look": ("cell", 2),
    "offer": ("value", 4),
    "finish": ("verdict", 2),
    "rule": ("lines", 2),
}
"""The number of an accepted answer that is counted: its name and its place."""


def kinds(name: str) -> list[str]:
    """The kinds that a call can be about."""
    return [f"kind {kind}" for kind in tables.KINDS_TOLD[name]]


TOLD = {
    "line": ["part", "empty"],
    "accept": ["fills 0", "fills 1", *kinds("accept")],
    "look": ["cell 0", "cell 1", "cell 2", "unnamed 0", "unnamed 12"],
    "offer": ["value 0", "value 1", *kinds("offer")],
    "close": kinds("close"),
    "finish": ["verdict 0", "verdict 1"],
    "page": ["mark .", "mark 0", "mark 1", "room just so", "room to spare"],
    "rule": [f"lines {count}" for count in range(1, rules.MOST + 1)],
}
"""What an accepted call can say or be about, and must have at least once; and
that look without a node was accepted, and refused with 12."""

HUGE = [2**16, 2**31, 2**32 - 1, 2**32, 2**32 + 1, 2**63, 2**64 - 2, 2**64 - 1]
"""Numbers that fit no cell: some become small ones where they are cut."""


# --------------------------------------------------------------------------
# One call
# --------------------------------------------------------------------------


@dataclass
class Case:
    """A call: what is passed, and how long the array for the answer is."""

    name: str
    text: bytes
    table: bytes
    numbers: tuple[int, ...]
    room: int
    buffer: bytes = b""  # lent to page

    def written(self) -> str:
        """The case as one word, for --replay."""
        lent = [data.hex() for data in (self.text, self.table, self.buffer)]
        parts = [self.name, *lent, self.numbers, self.room]
        return base64.b85encode(zlib.compress(json.dumps(parts).encode(), 9)).decode()

    @staticmethod
    def read(word: str) -> Case:
        """The case that was written so."""
        name, *lent, numbers, room = json.loads(zlib.decompress(base64.b85decode(word)))
        text, table, buffer = map(bytes.fromhex, lent)
        return Case(name, text, table, tuple(numbers), room, buffer)


def line_place(text: bytes, number: int) -> list[int]:
    """The model's line: where it starts and how long it is."""
    try:
        start, count = checker.place(checker.sizes(text), number)
    except checker.No:
        return [0, 0]
    return [start, 5 * count]


def model(case: Case) -> tuple[list[int], bytes, bytes]:
    """All numbers of the model's answer, and table and buffer afterwards."""
    answer, table, buffer = [], case.table, case.buffer
    if case.name == "read":
        answer = list(checker.read(case.text))
    elif case.name == "line":
        answer = line_place(case.text, *case.numbers)
    elif case.name == "rule":
        answer, table = rules.rule(case.text, table)
    elif case.name == "page":
        answer, buffer = pages.lent(case.text, table, *case.numbers, buffer)
    else:
        answer, table = getattr(checker, case.name)(case.text, table, *case.numbers)
    return answer, table, buffer


@dataclass
class Difference:
    """A call where something is wrong, with the numbers of both."""

    case: Case
    model: list[int]
    library: list[int]
    wrong: list[str]

    def size(self) -> tuple[int, ...]:
        """How large it is, to be shown."""
        return len(self.case.text), len(self.case.table), len(self.case.buffer)

    def show(self) -> None:
        """Print it so that it can be made again."""
        case = self.case
        print(f"DIFFERS: {case.name}{case.numbers}, room for {case.room}: ", end="")
        print("; ".join(self.wrong))
        show_text(case.text)
        print(f"    table of {len(case.table)} bytes: {case.table[:96].hex()}")
        if case.name == "page":
            print(f"    buffer of {len(case.buffer)} bytes: {case.buffer[:96].hex()}")
        print(f"    model:   {self.model}")
        print(f"    library: {self.library}")
        print(f"    again:   --replay '{case.written()}'")


def show_text(text: bytes) -> None:
    """A text, or the beginning of a long one."""
    parts = text.splitlines(keepends=True)
    for part in parts[:30]:
        print("   ", part)
    if len(parts) > 30:
        print(f"    .. {len(text)} bytes")


# --------------------------------------------------------------------------
# The library
# --------------------------------------------------------------------------


def header_widths() -> dict[str, int]:
    """How many numbers each answer has, as the header says."""
    found = re.findall(r"SELAHMUR_(\w+)_NUMBERS = (\d+)", HEADER.read_text())
    return {name.lower(): int(width) for name, width in found}


def header_wrong() -> Iterator[str]:
    """The header names every number of a refusal, and each once."""
    found = re.findall(r"^    SELAHMUR_(\w+) = (\d+)", HEADER.read_text(), re.M)
    numbers = [int(n) for name, n in found if not name.endswith("_NUMBERS")]
    if numbers != list(range(25)):
        yield f"the header's refusals are {numbers}"


def compiled(arguments: list[str], made: pathlib.Path) -> pathlib.Path:
    """Have the C compiler make a file."""
    subprocess.run(["cc", *arguments, "-o", str(made)], check=True)
    return made


class Lent:
    """Memory to lend, with bytes before and behind that have to stay."""

    GUARD = bytes(range(0x91, 0xD1))

    def __init__(self, most: int) -> None:
        self.memory = ctypes.create_string_buffer(most + 2 * len(self.GUARD))
        self.start = ctypes.addressof(self.memory)
        self.held = b""

    def lend(self, data: bytes) -> int:
        """Put the bytes into the memory; where they stand."""
        whole = self.GUARD + data + self.GUARD
        ctypes.memmove(self.start, whole, len(whole))
        self.held = data
        return self.start + len(self.GUARD)

    def back(self) -> tuple[bytes, bool]:
        """The bytes now, and whether those around them stayed."""
        guard = len(self.GUARD)
        whole = ctypes.string_at(self.start, len(self.held) + 2 * guard)
        kept = whole[:guard] == self.GUARD and whole[-guard:] == self.GUARD
        return whole[guard:-guard], kept


class Library:
    """The functions of the archive."""

    def __init__(self, archive: str, where: pathlib.Path) -> None:
        whole = ["-Wl,--whole-archive", archive, "-Wl,--no-whole-archive"]
        loaded = ctypes.CDLL(str(compiled(["-shared", *whole], where / "selahmur.so")))
        size, array = ctypes.c_size_t, [ctypes.c_void_p, ctypes.c_size_t]
        self.functions = {}
        for name, count in NUMBERS.items():
            numbers = [size] * count
            if name == "accept":
                numbers[-1] = ctypes.c_uint8
            lent = array if name in TEXT_ALONE else array * 2
            more = array if name == "page" else []
            function = getattr(loaded, f"selahmur_{name}")
            function.argtypes = [*lent, *numbers, *more, *array]
            function.restype = None
            self.functions[name] = function
        self.text, self.table = Lent(200_000), Lent(200_000)
        self.buffer, self.answer = Lent(200_000), Lent(8 * 100)

    def call(self, case: Case) -> tuple[list[int], bytes, bytes, list[str]]:
        """Make the call: the array, the table, the buffer, and what else is wrong."""
        passed = [self.text.lend(case.text), len(case.text)]
        # All are lent, so that a call that is not passed one has to leave it.
        table = [self.table.lend(case.table), len(case.table)]
        buffer = [self.buffer.lend(case.buffer), len(case.buffer)]
        array = struct.pack(f"={case.room}Q", *unwritten(case.room))
        if case.name not in TEXT_ALONE:
            passed += table
        passed += case.numbers
        if case.name == "page":
            passed += buffer
        passed += [self.answer.lend(array), case.room]
        self.functions[case.name](*passed)
        text, text_kept = self.text.back()
        table, table_kept = self.table.back()
        buffer, buffer_kept = self.buffer.back()
        array, answer_kept = self.answer.back()
        wrong = []
        if text != case.text:
            wrong.append("the text is changed")
        for name, kept in (
            ("text", text_kept),
            ("table", table_kept),
            ("buffer", buffer_kept),
            ("answer", answer_kept),
        ):
            if not kept:
                wrong.append(f"bytes around the {name} are changed")
        return list(struct.unpack(f"={case.room}Q", array)), table, buffer, wrong


def unwritten(room: int) -> list[int]:
    """What stands in the array for the answer before the call."""
    return [0xA5A5_A5A5_0000_0000 + i for i in range(room)]


# --------------------------------------------------------------------------
# The comparison
# --------------------------------------------------------------------------


class Comparison:
    """What was called, and the differences found.

    The case at work is kept in memory that the waiting process shares, so that
    a crash or a hang can be told."""

    def __init__(self, rng: random.Random, library: Library, shared: mmap.mmap) -> None:
        self.rng = rng
        self.library = library
        self.shared = shared
        self.widths = header_widths()
        self.calls = 0
        self.counts: collections.Counter[tuple[str, int | str]] = collections.Counter()
        self.differences: list[Difference] = []

    def room(self, width: int) -> int:
        """How long an array is lent for an answer of that many numbers."""
        way = self.rng.randrange(10)
        if way < 5:
            return width
        if way < 8:
            return width + self.rng.randint(1, 4)
        return self.rng.randrange(width)

    def call(
        self, name: str, text: bytes, table: bytes, numbers: tuple[int, ...]
    ) -> tuple[list[int], bytes]:
        """Make a call with an array of some length; what the model gives."""
        case = self.case(name, text, table, numbers, self.room(self.widths[name]))
        return self.compare(case)

    def case(
        self, name: str, text: bytes, table: bytes, numbers: tuple[int, ...], room: int
    ) -> Case:
        """A call; page's last number is how long a buffer is lent, of any content."""
        if name == "page":
            node, length = numbers
            return Case(name, text, table, (node,), room, self.rng.randbytes(length))
        return Case(name, text, table, numbers, room)

    def compare(self, case: Case) -> tuple[list[int], bytes]:
        """Make one call of both and compare them; what the model gives."""
        self.calls += 1
        answer, *after = model(case)
        keep(self.shared, self.calls, case)
        array, *bytes_now, wrong = self.library.call(case)
        forget(self.shared)
        if len(answer) != self.widths.get(case.name):
            wrong.append("the header has another count of numbers")
        if array != (answer + unwritten(case.room)[len(answer) :])[: case.room]:
            wrong.append("another answer")
        for name, now, right in zip(("table", "buffer"), bytes_now, after):
            if now != right:
                at = next(i for i, (a, b) in enumerate(zip(now, right)) if a != b)
                told = f"{now[at]} and not {right[at]}"
                wrong.append(f"byte {at} of the {name} is {told}")
        if wrong:
            self.differences.append(Difference(case, answer, array, wrong))
        self.count(case, answer)
        if case.name == "page" and answer[0] == 0:
            self.count_page(case, after[1])
        return answer, after[0]

    def count(self, case: Case, answer: list[int]) -> None:
        """Count the call, and what it said."""
        name = case.name
        if name == "look" and case.numbers[0] == checker.NO_NODE:
            self.counts[name, f"unnamed {answer[0]}"] += 1
        if name == "line":
            self.counts[name, "part" if answer[1] > 0 else "empty"] += 1
            return
        self.counts[name, answer[0]] += 1
        if answer[0] == 0 and name in SAID:
            word, place = SAID[name]
            self.counts[name, f"{word} {answer[place]}"] += 1
        if answer[0] == 0 and name in tables.KINDS_TOLD:
            kind = tables.kind_told(name, case.text, case.numbers, answer)
            self.counts[name, f"kind {kind}"] += 1

    def count_page(self, case: Case, buffer: bytes) -> None:
        """Count what stands on a page, and whether more was lent than it takes."""
        page = tables.page_room(checker.parse(case.text).sizes.states)
        room = "just so" if len(buffer) == page else "to spare"
        self.counts["page", f"room {room}"] += 1
        lines = buffer[:page].splitlines()[1:]
        for mark in set(b"".join(line[15:] for line in lines)) & set(b".01"):
            self.counts["page", f"mark {mark:c}"] += 1

    def missing(self) -> Iterator[str]:
        """What should have come and never did."""
        for name, numbers in QUESTIONS.items():
            for number in numbers:
                if self.counts[name, number] == 0:
                    told = f"refused with {number}" if number else "accepted"
                    yield f"{name} was never {told}"
        for name, words in TOLD.items():
            for word in words:
                if self.counts[name, word] == 0:
                    yield f"{name}: never {word}"

    def show(self) -> None:
        """Print the counts, and the differences with the shortest texts."""
        for name in NUMBERS:
            said = {key: n for (of, key), n in self.counts.items() if of == name}
            numbers = sorted(key for key in said if isinstance(key, int))
            words = [key for key in TOLD.get(name, []) if key in said]
            parts = [f"{key}: {said[key]}" for key in [*numbers, *words]]
            print(f"{name}: {', '.join(parts)}")
        for one in sorted(self.differences, key=Difference.size)[:SHOWN]:
            one.show()


def keep(shared: mmap.mmap, calls: int, case: Case) -> None:
    """Note the case at work where the waiting process finds it."""
    sizes = [len(case.text), len(case.table)]
    head = json.dumps([case.name, *sizes, case.numbers, case.room]).encode()
    noted = head + b"\n" + case.text + case.table + case.buffer
    shared[:16] = calls.to_bytes(8, "little") + len(noted).to_bytes(8, "little")
    shared[16 : 16 + len(noted)] = noted


def forget(shared: mmap.mmap) -> None:
    """No case is at work any more."""
    shared[8:16] = bytes(8)


def begun(shared: mmap.mmap) -> tuple[int, bool]:
    """How many calls were begun, and whether the last is still at work."""
    return int.from_bytes(shared[:8], "little"), any(shared[8:16])


def kept(shared: mmap.mmap) -> Case | None:
    """The call at work, if there is one, once the process has ended: until then it
    may be written while it is read."""
    length = int.from_bytes(shared[8:16], "little")
    if length == 0:
        return None
    head, _, data = shared[16 : 16 + length].partition(b"\n")
    name, size, more, numbers, room = json.loads(head)
    text, table, buffer = data[:size], data[size:][:more], data[size + more :]
    return Case(name, text, table, tuple(numbers), room, buffer)


# --------------------------------------------------------------------------
# Lists of calls
# --------------------------------------------------------------------------


def fitted(name: str, numbers: tuple[int, ...]) -> tuple[int, ...]:
    """The numbers of a call, where the value of a message is a byte."""
    if name == "accept":
        return *numbers[:-1], min(numbers[-1], 255)
    return numbers


class Play:
    """A job, and a table on which a list of calls goes on."""

    def __init__(self, comparison: Comparison, picture: generate.Picture) -> None:
        self.rng = comparison.rng
        self.comparison = comparison
        self.picture = picture
        self.text = picture.text()
        self.job = checker.parse(self.text)
        self.table = tables.fresh_table(self.job)
        self.handed: list[tuple[int, int, int]] = []
        self.bad: list[bytes] = []

    def call(self, name: str, *numbers: int, text: bytes | None = None) -> list[int]:
        """A call on the table, which goes on; the answer."""
        passed = self.text if text is None else text
        answer, self.table = self.comparison.call(name, passed, self.table, numbers)
        return answer

    def aside(self, name: str, table: bytes, *numbers: int) -> None:
        """A call on another table."""
        self.comparison.call(name, self.text, table, numbers)

    def spoilt(self) -> bytes:
        """A text that is not the job's: damaged, or another job's."""
        if not self.bad:
            found = [one.text for one in damaged.damages(self.rng, self.picture)]
            self.bad = self.rng.sample(found, min(12, len(found)))
            self.bad += damaged.flips(self.rng, self.text, 4)
            self.bad += damaged.scribbles(self.rng, self.picture, 4)
            self.bad.append(faults.some_faults(self.rng, self.picture).text)
            self.bad.append(faults.some_edge_list(self.rng, self.picture).text())
            self.bad += damaged.noise(self.rng, 1)
            self.bad += [b"", self.text + b"\n", self.text + bytes(2**16)]
        return self.rng.choice(self.bad)

    def numbers(self, name: str) -> tuple[int, ...]:
        """Numbers for a call on a table, sometimes far out of range."""
        found = list(fitted(name, tables.any_numbers(self.rng, self.job, name)))
        places = len(found) - (name in ("accept", "page"))
        if name == "page" and self.rng.randrange(30) == 0:
            found[-1] += 2**16
        if places and self.rng.randrange(12) == 0:
            at = self.rng.randrange(places)
            near = [found[at] + 2**32, found[at] + 2**8, 2**64 - 1 - found[at]]
            found[at] = self.rng.choice([*HUGE, *near])
        return tuple(found)

    def line(self, text: bytes | None = None) -> None:
        """The call line, at the ends and anywhere."""
        last = len(self.picture.lines())
        ends = [0, 1, 2, last, last + 1, last + 2]
        number = self.rng.choice([*ends, *HUGE, 2**32 + last])
        if self.rng.randrange(2):
            number = self.rng.randint(1, last)
        self.call("line", number, text=text)

    def nuisance(self) -> None:
        """A call that is not the list's: with another text or another table, or
        one that would end the list or fill a cell with a lie, set aside."""
        name = self.rng.choice([*tables.NUMBERS])
        way = self.rng.randrange(7)
        if way == 0:
            text = self.spoilt()
            self.call(name, *self.numbers(name), text=text)
            self.call("read", text=text)
            self.line(text=text)
        elif way == 1:
            other = tables.wrong_length_table(self.rng, self.job)
            if self.rng.randrange(4) == 0:
                other = self.table + bytes([EMPTY]) * 2**16
            self.aside(name, other, *self.numbers(name))
        elif way == 2:
            other = tables.bad_table(self.rng, self.job)
            self.aside(name, other, *self.numbers(name))
        elif way == 3:
            self.line()
        elif way == 4:
            rule_call(self.comparison, self.rng.choice([self.text, self.spoilt()]))
            rule_call(self.comparison, some_rule(self.rng), self.table)
        elif name in ("step", "offer", "look", "close", "page"):
            self.call(name, *self.numbers(name))
        else:
            self.aside(name, self.table, *self.numbers(name))

    # ---- honest lists

    def begin(self) -> None:
        """Read the job, and make a table fresh that held anything."""
        self.call("read")
        self.table = self.rng.randbytes(self.job.size())
        self.call("fresh")

    def step(self) -> int:
        """The step of some node; how many cells it filled."""
        return self.call("step", self.rng.randrange(self.job.sizes.nodes))[2]

    def offer(self) -> None:
        """Have a message handed out, if the owner knows."""
        if not self.job.temporal():
            return
        answer = self.call(
            "offer",
            self.rng.randrange(self.job.sizes.states),
            self.rng.choice(self.job.temporal()),
        )
        if answer[0] == 0:
            self.handed.append(tuple(answer[2:]))

    def deliver(self) -> int:
        """Deliver any message that was handed out, old or new, perhaps again;
        how many cells it filled."""
        if not self.handed:
            return 0
        message = self.rng.choice(self.handed)
        near = [n for n, border in enumerate(self.job.border) if message[0] in border]
        if not near:
            return 0
        return self.call("accept", self.rng.choice(near), *message)[2]

    def settle(self, turns: int) -> bool:
        """Step all nodes and deliver what owners know, in any order, until
        nothing is filled, for so many turns at most; whether that came."""
        for _ in range(turns):
            filled = 0
            nodes = list(range(self.job.sizes.nodes))
            self.rng.shuffle(nodes)
            for node in nodes:
                filled += self.call("step", node)[2]
            wanted = checker.copies(self.job, self.table, self.job.temporal())
            self.rng.shuffle(wanted)
            for node, state, formula, _ in wanted:
                answer = self.call("offer", state, formula)
                message = tuple(answer[2:])
                self.handed.append(message)
                filled += self.call("accept", node, *message)[2]
                if self.rng.randrange(8) == 0:
                    self.deliver()
            if filled == 0:
                return True
        return False

    def honest(self, turns: int, stray: int) -> None:
        """The workers' way from a fresh table to a full one, with calls astray
        in between."""
        self.begin()
        for _ in range(turns):
            for _ in range(self.rng.randrange(stray)):
                way = self.rng.randrange(9)
                if way < 2:
                    self.step()
                elif way < 4:
                    self.offer()
                elif way < 6:
                    self.deliver()
                elif way < 7:
                    self.call("look", *self.numbers("look"))
                elif way < 8:
                    self.call("page", *self.numbers("page"))
                else:
                    self.nuisance()
            if self.rng.randrange(3) == 0:
                self.call("close")
            if self.settle(turns) and self.call("close")[0] == 20:
                break
            if self.rng.randrange(40) == 0:
                self.call("fresh")
        for name in ("finish", "close", "finish"):
            self.call(name)
        for node in (checker.NO_NODE, self.job.owner[0]):
            self.call("look", node, 0, self.job.sizes.formulas - 1)
        for node in range(self.job.sizes.nodes):
            self.call("page", node, tables.page_room(self.job.sizes.states))

    # ---- lists from any table

    def wild(self, count: int) -> None:
        """Any calls from any table, inconsistent ones too."""
        self.table = tables.good_table(self.rng, self.text)
        if self.rng.randrange(2):
            self.table = tables.settled_table(self.text, self.table)
            self.call("close")
        for _ in range(count):
            way = self.rng.randrange(20)
            if way == 0:
                self.nuisance()
                continue
            if way == 1:
                self.table = tables.good_table(self.rng, self.text)
            name = self.rng.choice(
                ["step"] * 4 + ["offer"] * 4 + ["accept"] * 5 + ["look"] * 4
                + ["close"] * 3 + ["page"] * 4
                + ["finish", "fresh"] * (self.rng.randrange(8) == 0)
            )  # fmt: skip
            self.call(name, *self.numbers(name))

    # ---- every refusal of a text

    def refusals(self) -> None:
        """Each of questions 1 to 8 failing, in every call, on a good table."""
        found: dict[int, list[bytes]] = collections.defaultdict(list)
        for damage in damaged.damages(self.rng, self.picture):
            found[damage.number].append(damage.text)
        self.table = tables.good_table(self.rng, self.text)
        for number in sorted(found):
            for name in tables.NUMBERS:
                text = self.rng.choice(found[number])
                self.call(name, *self.numbers(name), text=text)
            for text in self.rng.sample(found[number], min(3, len(found[number]))):
                self.call("read", text=text)
                self.line(text=text)
        for name in tables.NUMBERS:
            for other in (tables.wrong_length_table, tables.bad_table):
                self.aside(name, other(self.rng, self.job), *self.numbers(name))

    def faulty(self, most: int) -> None:
        """Texts of the job with several faults at once, and edge lists of it with
        several wrong lines, so many of either at most: read, and now and then in
        another call."""
        found = faults.some(self.rng, faults.several(self.rng, self.picture), most)
        texts = [damage.text for damage in found]
        lists = faults.some(self.rng, faults.edge_lists(self.rng, self.picture), most)
        texts += [spoilt.text() for spoilt in lists]
        for text in texts:
            read_text(self.comparison, text)
            if self.rng.randrange(8) == 0:
                name = self.rng.choice([*tables.NUMBERS])
                self.call(name, *self.numbers(name), text=text)

    # ---- two jobs, one table

    def recut(self, count: int) -> None:
        """Calls with the texts of two cuttings of one structure by turns: one
        table fits both in length, and each says something else about it."""
        nodes = self.job.sizes.nodes
        other = generate.owners(self.rng, len(self.picture.owner), nodes)
        text = replace(self.picture, owner=other).text()
        for _ in range(count):
            names = ["step", "step", "offer", "accept", "look", "close", "page"]
            name = self.rng.choice(names)
            self.call(name, *self.numbers(name), text=self.rng.choice([None, text]))


# --------------------------------------------------------------------------
# Rule texts
# --------------------------------------------------------------------------


def some_rule(rng: random.Random) -> bytes:
    """A rule as text."""
    return rule_texts.spelled(rng, rule_texts.some_tree(rng))


def some_buffer(rng: random.Random) -> bytes:
    """A buffer to lend, of any content and mostly of the right length."""
    right = rules.ROOM
    others = [0, 16, right - 1, right + 1, 2**16 + right, rng.randrange(2 * right)]
    return rng.randbytes(rng.choice(others) if rng.randrange(8) == 0 else right)


def rule_call(comparison: Comparison, text: bytes, buffer: bytes | None = None) -> None:
    """The call rule, on a buffer of its own where none is passed."""
    lent = some_buffer(comparison.rng) if buffer is None else buffer
    comparison.call("rule", text, lent, ())


def told_rules(comparison: Comparison) -> None:
    """Texts that come with their answers, and every text of up to four tokens,
    with spaces and without."""
    told = [*rule_texts.ACCEPTED, *rule_texts.limits()]
    texts = [*(one.text for one in told), *rule_texts.REFUSED]
    for text in texts:
        rule_call(comparison, text)
    for count in range(5):
        for tokens in rule_texts.short(count):
            texts += [rule_texts.spaced(tokens), rule_texts.together(tokens)]
    for text in texts:
        rule_call(comparison, text, comparison.rng.randbytes(rules.ROOM))
    for text, buffer in rule_texts.chosen():
        rule_call(comparison, text, buffer)


def drawn_rules(comparison: Comparison) -> None:
    """Rules in three spellings, one with a prefix more and more often, and
    damages of them."""
    rng = comparison.rng
    tree = rule_texts.some_tree(rng)
    texts = [*rule_texts.spellings(rng, tree), *rule_texts.spoilt(rng, tree)]
    text = some_rule(rng)
    for count in range(34):
        prefix = rng.choice(rule_texts.PREFIXES).encode() + b" "
        texts.append(prefix * count + b"(" + text + b")")
    for text in [*texts, *rule_texts.noise(rng, 2)]:
        rule_call(comparison, text)


# --------------------------------------------------------------------------
# All lists
# --------------------------------------------------------------------------


def large_list(play: Play) -> None:
    """A few calls of every name on a large job, from a fresh table and from any."""
    play.begin()
    for _ in range(4):
        play.step()
        play.offer()
        play.deliver()
        play.call("look", *play.numbers("look"))
        play.call("page", *play.numbers("page"))
        play.nuisance()
        play.line()
    play.call("close")
    play.call("finish")
    play.call("close")
    play.wild(8)


def large_lists(comparison: Comparison) -> None:
    """Jobs at the limits: every size at its end, all of them in the first."""
    rng = comparison.rng
    for picture in (
        generate.full(rng),
        generate.zigzag(256, 5, 8),
        generate.picture(rng, 256, 4, 8, exact=True),
        generate.picture(rng, 40, 32, 8, exact=True),
    ):
        large_list(Play(comparison, picture))
    for kind in (checker.EU, checker.AG):
        Play(comparison, generate.cut_ring(kind, 256, 4, False)).honest(4, 12)
    Play(comparison, generate.tangled(rng, 256, 8, 8)).honest(3, 12)


def computed_cases(comparison: Comparison) -> None:
    """The cases on which the definitions are computed, with room for each answer."""

    def call(name: str, table: bytes, numbers: tuple[int, ...]) -> bytes:
        room = comparison.widths[name]
        case = comparison.case(name, trial.text, table, fitted(name, numbers), room)
        return comparison.compare(case)[1]

    for trial in trials.trials(trials.SEED, trials.COUNT):
        table = call("read", trial.table, ())
        for at in trial.lines:
            call("line", table, (at,))
        for name, numbers in trial.calls:
            table = call(name, table, numbers)
    for text, table, node, buffer in page_cases.chosen():
        room = comparison.widths["page"]
        comparison.compare(Case("page", text, table, (node,), room, buffer))


def faulty_texts(comparison: Comparison) -> None:
    """Texts with several faults at once, and edge lists with several wrong lines:
    all that are made of small jobs, and every short list."""
    for job in faults.shapes(comparison.rng):
        Play(comparison, job).faulty(FAULTY if len(job.edges) > 200 else 1000)
    for spoilt in itertools.chain(
        faults.short_lists(),
        faults.every_list(2, 2, (0, 1, 2, *faults.FAR)),
        faults.every_list(2, 4, (0, 1, 2)),
        faults.every_list(3, 3, (0, 1, 2, 3)),
    ):
        read_text(comparison, spoilt.text())


def read_text(comparison: Comparison, text: bytes) -> None:
    """The call read, with room for the whole answer."""
    comparison.compare(Case("read", text, b"", (), comparison.widths["read"]))


def small_lists(comparison: Comparison, i: int) -> None:
    """The i-th draw of small jobs."""
    rng = comparison.rng
    kind, negated = rng.choice(checker.SETS), rng.random() < 0.5
    ring = generate.cut_ring(kind, rng.randint(2, 12), rng.randint(3, 9), negated)
    Play(comparison, ring).honest(10, 12)
    Play(comparison, generate.tangled(rng, 8, 10, 4)).honest(8, 12)
    Play(comparison, generate.picture(rng, 6, 8, 4)).honest(6, 12)
    Play(comparison, generate.picture(rng)).wild(60)
    Play(comparison, generate.tangled(rng, 6, 9, 4)).wild(60)
    Play(comparison, generate.picture(rng, 6, 8, 3)).recut(30)
    if i % 8 == 0:
        Play(comparison, generate.picture(rng, 5, 6, 3, exact=True)).refusals()
    if i % 4 == 2:
        long = generate.zigzag(rng.randint(3, 16), rng.randint(4, 9), rng.randint(2, 8))
        Play(comparison, long).honest(2, 12)
    if i % 8 == 4:
        Play(comparison, generate.tangled(rng, 40, 20, 8)).honest(3, 12)
    drawn_rules(comparison)


def lists(comparison: Comparison, count: int) -> None:
    """All lists: small jobs and rules, and now and then the large ones."""
    told_rules(comparison)
    computed_cases(comparison)
    faulty_texts(comparison)
    for i in range(count):
        if i % 100 == 0:
            large_lists(comparison)
        small_lists(comparison, i)


# --------------------------------------------------------------------------
# The worked examples in C
# --------------------------------------------------------------------------


def example(name: str, archive: str, where: pathlib.Path) -> pathlib.Path:
    """Compile one with the header."""
    strict = ["-std=c99", "-pedantic", "-Wall", "-Wextra", "-Werror"]
    source = EXAMPLES / f"{name}.c"
    include = f"-I{HEADER.parent}"
    return compiled([*strict, include, str(source), archive], where / name)


def example_wrong(
    program: pathlib.Path, text: bytes, others: list[bytes], told: tuple[str, int]
) -> Iterator[str]:
    """Run one on a job and further arguments, and compare what it prints and
    its exit status."""
    file = program.with_suffix(".job")
    file.write_bytes(text)
    command = [program, file, *others]
    run = subprocess.run(command, capture_output=True, timeout=SECONDS)
    said = run.stdout.decode("latin-1"), run.returncode
    if said != told:
        yield f"{program.name} says {said} of {others}, the model {told}"
        show_text(text)


def service_plays(text: bytes) -> tuple[str, int, bytes]:
    """The line that examples/service.c must print, its exit status, and the table
    afterwards: the same calls of the model."""
    number, at, states, _, formulas, nodes = checker.read(text)
    if number != 0:
        part = checker.line(text, at).decode("latin-1")
        shown = f": '{part}'" if part else ""
        return f"read is refused: {number}, line {at}{shown}\n", 2, b""
    _, table = checker.fresh(text, bytes(nodes * states * formulas))
    told: set[tuple[int, int]] = set()
    steps = messages = closes = filled = 0
    while True:
        turn = 0
        for node in range(nodes):
            answer, table = checker.step(text, table, node)
            steps += 1
            turn += answer[2]
        for state in range(states):
            for formula in range(formulas):
                answer, _ = checker.offer(text, table, state, formula)
                if answer[0] != 0 or (state, formula) in told:
                    continue
                told.add((state, formula))
                for node in range(nodes):
                    got, table = checker.accept(text, table, node, *answer[2:])
                    messages += got[0] == 0
                    turn += got[2]
        if turn == 0:
            answer, table = checker.close(text, table)
            closes += answer[0] == 0
            turn = answer[3]
        filled += turn
        if turn == 0:
            break
    (_, _, verdict, *_), table = checker.finish(text, table)
    done = f"{filled} cells, {steps} steps, {messages} messages, {closes} closes"
    return f"{'yes' if verdict else 'no'}: {done}\n", 0 if verdict else 1, table


def service_says(text: bytes, node: int | None = None) -> tuple[str, int]:
    """All that examples/service.c must print, and its exit status: the page of a
    node, too, where one is named and the job is accepted."""
    said, status, table = service_plays(text)
    if node is None or not table:
        return said, status
    room = tables.page_room(checker.parse(text).sizes.states)
    (number, _), page = pages.lent(text, table, node, bytes(room))
    if number != 0:
        return f"{said}page is refused: {number}\n", 2
    return said + page.decode(), status


def service_wrong(
    rng: random.Random, archive: str, where: pathlib.Path
) -> Iterator[str]:
    """Compile examples/service.c and run it on jobs, damaged ones among them,
    without a node and with each of the first, up to one that the examples have
    not."""
    program = example("service", archive, where)
    texts = [path.read_bytes() for path in sorted(EXAMPLES.glob("*.job"))]
    for _ in range(6):
        job = generate.tangled(rng, 6, 10, 4)
        texts += [job.text(), generate.picture(rng).text(), damaged.spoilt(rng, job)]
    for text in texts:
        yield from example_wrong(program, text, [], service_says(text))
        for node in range(4):
            told = service_says(text, node)
            yield from example_wrong(program, text, [b"%d" % node], told)
    told = service_says(texts[0], checker.NO_NODE)
    for nameless in (b"x", b"", b"0x", b"-1", b"255"):
        yield from example_wrong(program, texts[0], [nameless], told)


def yes_or_no(verdict: bool) -> tuple[str, int]:
    """What examples/rule.c must print for a verdict, and its exit status."""
    return ("yes\n", 0) if verdict else ("no\n", 1)


def rule_says(text: bytes, rule: bytes) -> tuple[str, int]:
    """What examples/rule.c must print, and its exit status: the truth of the
    rule as it is typed, at state 0 of the machine."""
    number, at, *_ = checker.read(text)
    if number != 0:
        return f"the machine is refused: {number}, line {at}\n", 2
    (number, _, _), _ = rules.rule(rule, bytes(rules.ROOM))
    if number != 0:
        return f"the rule is refused: {number}\n", 2
    return yes_or_no(0 in rules.holding(checker.parse(text), rules.tree(rule)))


def rule_wrong(rng: random.Random, archive: str, where: pathlib.Path) -> Iterator[str]:
    """Compile examples/rule.c and run it: the examples' rules have the verdicts
    of their jobs; others, damaged ones among them, have theirs by the model."""
    program = example("rule", archive, where)
    for path in sorted(EXAMPLES.glob("*.rule")):
        text = path.with_suffix(".job").read_bytes()
        told = yes_or_no(path.with_suffix(".line").read_bytes().split()[2] == b"1")
        rule = path.read_bytes().removesuffix(b"\n")
        yield from example_wrong(program, text, [rule], told)
    most = [one.text for one in rule_texts.limits() if one.lines == rules.MOST]
    pairs = [(generate.full(rng).text(), rng.choice(most))]
    for _ in range(6):
        job, tree = generate.picture(rng), rule_texts.some_tree(rng)
        typed = [*rule_texts.spellings(rng, tree), *rule_texts.spoilt(rng, tree)]
        pairs += [(job.text(), rule) for rule in typed if 0 not in rule]
        pairs.append((damaged.spoilt(rng, job), typed[0]))
    for text, rule in pairs:
        yield from example_wrong(program, text, [rule], rule_says(text, rule))


# --------------------------------------------------------------------------
# The program
# --------------------------------------------------------------------------


def work(chosen: argparse.Namespace, where: pathlib.Path, shared: mmap.mmap) -> int:
    """All calls, in a process that may crash."""
    began = time.time()
    rng = random.Random(chosen.seed)
    comparison = Comparison(rng, Library(chosen.archive, where), shared)
    if chosen.replay:
        comparison.compare(Case.read(chosen.replay))
        for difference in comparison.differences:
            difference.show()
        print(f"{len(comparison.differences)} differ")
        return 1 if comparison.differences else 0
    lists(comparison, chosen.count)
    comparison.show()
    wrong = [*comparison.missing(), *header_wrong()]
    wrong += service_wrong(rng, chosen.archive, where)
    wrong += rule_wrong(rng, chosen.archive, where)
    for what in wrong:
        print(f"WRONG: {what}")
    print(
        f"{comparison.calls} calls, {len(comparison.differences)} differ; "
        f"{time.time() - began:.0f} s"
    )
    return 1 if comparison.differences or wrong else 0


def watch(child: int, shared: mmap.mmap) -> int:
    """Wait for the process at work; tell the call in which it crashed or hung."""
    seen, since = begun(shared), time.time()
    while True:
        ended, status = os.waitpid(child, os.WNOHANG)
        if ended and os.WIFEXITED(status):
            return os.WEXITSTATUS(status)
        if begun(shared) != seen:
            seen, since = begun(shared), time.time()
        calls, at_work = seen
        limit = SECONDS if at_work else BETWEEN
        if ended or time.time() - since > limit:
            if not ended:
                os.kill(child, 9)
                os.waitpid(child, 0)
            how = f"signal {os.WTERMSIG(status)}" if ended else f"no end in {limit} s"
            case = kept(shared)
            if case is not None:
                Difference(case, model(case)[0], [], [how]).show()
            print(f"{calls} calls; {'in' if case else 'behind'} the last one: {how}")
            return 1
        time.sleep(0.05)


def main() -> int:
    """The program."""
    options = argparse.ArgumentParser(description=__doc__)
    options.add_argument("archive")
    options.add_argument("--seed", type=int, default=1)
    options.add_argument("--count", type=int, default=200)
    options.add_argument("--replay")
    chosen = options.parse_args()
    shared = mmap.mmap(-1, 2**20)
    with tempfile.TemporaryDirectory() as where:
        sys.stdout.flush()
        child = os.fork()
        if child == 0:
            status = 1
            try:
                status = work(chosen, pathlib.Path(where), shared)
            except BaseException:
                traceback.print_exc()
            sys.stdout.flush()
            os._exit(status)
        return watch(child, shared)


if __name__ == "__main__":
    sys.exit(main())
