"""A model of the table on paper, written apart from the product.

It follows request (v) ("The table on paper") of document 02 and nothing else.
Names in quotes are that request's words.

* `page`: one node's table as lines.
* `lent`: the call.  It gives all the numbers of the answer and the lent buffer
  afterwards; its questions stand in checker.py with those of the other calls.
* `printed`: what the program `page` prints.

Run as a program it is a stand-in for `page`: the node as an argument, the job
on standard input.
"""

from __future__ import annotations

import os
import re
import sys
from functools import lru_cache

import checker
from checker import EMPTY, FALSE, LONGEST, NO_NODE, PAGE_LINE, TRUE, Answer, Job
from generate import written_line

COLUMNS = 79
""" "Lines of exactly 79 columns and byte 10." """

MARKS = {FALSE: b"0", TRUE: b"1", EMPTY: b"."}
""" "`0`, `1` or `.` for empty." """


# --------------------------------------------------------------------------
# The page
# --------------------------------------------------------------------------


def heading(job: Job) -> bytes:
    """ "The first has 15 spaces and then the subformula numbers, right-justified
    in two columns each." """
    numbers = range(job.sizes.formulas)
    return b" " * 15 + b"".join(b"%2d" % k for k in numbers)


def row(job: Job, table: bytes, node: int, state: int) -> bytes:
    """ "State, owner and label in five columns, then for each subformula a space
    and `0`, `1` or `.`": the node's cells, whoever owns the state."""
    numbers = (state, job.owner[state], job.label[state])
    first = job.cell(node, state, 0)
    cells = table[first : first + job.sizes.formulas]
    marks = b"".join(b" " + MARKS[cell] for cell in cells)
    return b"".join(b"%5d" % n for n in numbers) + marks


def page(job: Job, table: bytes, node: int) -> bytes:
    """ "Each state follows", in the fragment or not; "each line is filled with
    spaces to 79"; "there are S + 1 lines". """
    rows = [row(job, table, node, s) for s in range(job.sizes.states)]
    return b"".join(line.ljust(COLUMNS) + b"\n" for line in [heading(job), *rows])


def lent(text: bytes, table: bytes, node: int, buffer: bytes) -> Answer:
    """The call: all the numbers of the answer, and the buffer afterwards.  "Bytes
    past [the lines] stay"; where the call is refused, all of them."""
    answer, _ = checker.page(text, table, node, len(buffer))
    if answer[0] != 0:
        return answer, bytes(buffer)
    lines = page(checker.parse(text), table, node)
    return answer, lines + buffer[len(lines) :]


# --------------------------------------------------------------------------
# The program
# --------------------------------------------------------------------------


@lru_cache(maxsize=8)
def finished(text: bytes) -> bytes:
    """The table that finish makes of a fresh one."""
    return checker.finish(text, bytes([EMPTY]) * checker.parse(text).size())[1]


def named(arguments: tuple[bytes, ...]) -> int:
    """The node that the first argument names: exactly one digit, or else none
    that a job has."""
    first = arguments[0] if arguments else b""
    return int(first) if re.fullmatch(rb"[0-9]", first) else NO_NODE


def printed(text: bytes, *arguments: bytes) -> bytes:
    """What `page` prints for this input with these arguments: the page after
    finish, or number and line of the refusal."""
    text = text[: LONGEST + 1]
    number, line, states, *_ = checker.read(text)
    if number == 0:
        room = bytes(PAGE_LINE * (states + 1))
        (number, line), lines = lent(text, finished(text), named(arguments), room)
    return lines if number == 0 else written_line((number, line))


if __name__ == "__main__":
    given = sys.stdin.buffer.read(LONGEST + 1)
    sys.stdout.buffer.write(printed(given, *map(os.fsencode, sys.argv[1:])))
