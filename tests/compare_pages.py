"""The part of compare.py for pages: the model of `pages.py` against the definitions
of the crate page_text.

The cases are those of `page_cases.chosen`, and as many draws besides as are asked
for.  They must be answered under each number and notice every mutant of the page
in `mutants.py`.
"""

from __future__ import annotations

import collections
import random
from dataclasses import dataclass

import mutants
import page_cases
import pages
import tables
import trials
from page_cases import PageCase
from prover import Crate, antt_numbers, antt_text

NUMBERS = (0, *trials.QUESTIONS["page"])
"""What the call can answer."""

TOGETHER = 8
"""The cases of one proposition."""


def antt_buffer(data: bytes, page: int) -> str:
    """A buffer in antt, in which so many bytes are a page."""
    rest = data[page:]
    if rest and rest.count(rest[0]) == len(rest):
        told = f"replicate {len(rest)} {rest[0]}"
    else:
        told = antt_numbers(rest)
    return f"({antt_text(data[:page])} ++ {told})" if page else f"({told})"


@dataclass
class PageTrial:
    """A page, and the buffer lent for it."""

    case: PageCase
    lie: bool = False  # planted: a byte of the buffer is told wrongly

    def __str__(self) -> str:
        text, table, node, buffer = self.case
        told = f"{text!r}, table {list(table)}"
        return f"page of node {node} of {told}, lent {len(buffer)} bytes"

    def made(self) -> tuple[list[int], bytes]:
        """What the model says: all numbers of the answer, and the buffer."""
        answer, after = pages.lent(*self.case)
        if self.lie:
            after = after[:-1] + bytes([after[-1] ^ 1]) if after else b"\0"
        return answer, after


def cases(seed: int, count: int) -> list[PageTrial]:
    """The chosen pages, and so many draws."""
    rng = random.Random(seed)
    found = [*page_cases.chosen(), *page_cases.drawn(rng, count)]
    return [PageTrial(case) for case in found]


def given(papers: list[PageTrial]) -> dict[int, int]:
    """How many of the cases are answered under each number."""
    found = collections.Counter(trial.made()[0][0] for trial in papers)
    return {number: found[number] for number in NUMBERS}


def missing(papers: list[PageTrial]) -> list[str]:
    """What the cases do not show: answers, and mutants unnoticed, also those of
    page's questions."""
    answers = given(papers)
    noticed = mutants.page_counts(trial.case for trial in papers)
    return [f"page {number}" for number in NUMBERS if answers[number] == 0] + [
        name for name in noticed if noticed[name] == 0
    ]


CASES_HEAD = """-- Written by compare_pages.py: cases with the Python model's answers.
use Rattle.std.specs.Prelude.{ℕ, List, [], ◌∷◌, ◌++◌, length, replicate}
use Rattle.text.specs.Field.{Text}
use Rattle.job.specs.Answer.{numbers}
use Rattle.cells.specs.Table.{Table}
use Rattle.cells.specs.Calls.{answer, page}
use Rattle.cells.specs.Cases.{bytes}
use Rattle.page_text.specs.PageCall.{page_buffer}

pub record Trial : Type 0 where
  pub text : Text
  pub table : Table
  pub node : ℕ
  pub buffer : List ℕ
  pub told : List ℕ
  pub after : List ℕ

unfoldable pub recomputed : Trial → Trial
recomputed c =
    record {
      text = c.text;
      table = c.table;
      node = c.node;
      buffer = c.buffer;
      told =
          numbers (answer (page c.node (length c.buffer)) c.text c.table);
      after = page_buffer c.text c.table c.node c.buffer;
    }
"""


def antt_trial(trial: PageTrial) -> str:
    """A case with what the model says."""
    answer, after = trial.made()
    text, table, node, buffer = trial.case
    page = tables.page_room(int(text[:5])) if answer[0] == 0 else 0
    return f"""record {{
      text = {antt_text(text)};
      table = {antt_numbers(table)};
      node = {node};
      buffer = {antt_buffer(buffer, 0)};
      told = {antt_numbers(answer)};
      after = {antt_buffer(after, page)};
    }}
"""


class PageText(Crate[PageTrial]):
    """The crate that defines the page."""

    name, head = "page_text", CASES_HEAD
    below = ["law", "text", "job", "cells"]

    def write(self, batch: list[PageTrial]) -> None:
        """The cases and the propositions about them."""
        written = [antt_trial(trial) for trial in batch]
        starts = range(0, len(written), TOGETHER)
        groups = [written[start : start + TOGETHER] for start in starts]
        self.put_cases(*self.computed(groups))

    def told(self, case: PageTrial) -> list[str]:
        """What the model says of a case."""
        answer, after = case.made()
        return [f"{answer}", *map(repr, after.splitlines(keepends=True))]
