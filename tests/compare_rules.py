"""The part of compare.py for rule text: the model of `rules.py` against the
definitions of the crate rule_text.

The cases are those of `rule_texts.chosen`, and as many draws besides as are
asked for.  They must be answered under each number and notice every mutant of
rule text in `mutants.py`.
"""

from __future__ import annotations

import collections
import random
from dataclasses import dataclass
from typing import Iterator

import mutants
import rule_texts
import rules
from prover import Crate, antt_numbers

NUMBERS = (0, 21, 22, 23)
"""What the call can answer."""

TOGETHER = 20
"""The cases of one proposition."""


def last_run(data: bytes) -> tuple[bytes, bytes]:
    """The bytes, parted before the last run of equal ones."""
    start = data.rstrip(data[-1:])
    return start, data[len(start) :]


def shown(data: bytes) -> str:
    """The bytes, to be printed."""
    start, run = last_run(data)
    return f"{start!r} and {len(run)} times {run[:1]!r}" if len(run) > 8 else repr(data)


def antt_bytes(data: bytes) -> str:
    """The bytes in antt."""
    start, run = last_run(data)
    last = [f"replicate {len(run)} {run[0]}"] if run else ["[]"]
    return "(" + " ∷ ".join([*map(str, start), *last]) + ")"


@dataclass
class RuleTrial:
    """A rule text and the buffer lent with it."""

    text: bytes
    buffer: bytes
    lie: bool = False  # planted: the answer is told wrongly

    def __str__(self) -> str:
        return f"rule text {shown(self.text)}, lent {shown(self.buffer)}"

    def made(self) -> tuple[list[int], bytes]:
        """What the model says: all numbers of the answer, and the buffer."""
        answer, after = rules.rule(self.text, self.buffer)
        if self.lie:
            answer[-1] += 1
        return answer, after


def drawn(rng: random.Random, count: int) -> Iterator[bytes]:
    """Draws of a rule in three spellings, with damages of it, and noise."""
    for _ in range(count):
        tree = rule_texts.some_tree(rng, 12)
        yield from rule_texts.spellings(rng, tree)
        yield from rule_texts.spoilt(rng, tree)
        yield from rule_texts.noise(rng, 1)


def cases(seed: int, count: int) -> list[RuleTrial]:
    """The chosen texts, and so many draws."""
    rng = random.Random(seed)
    found = [RuleTrial(*case) for case in rule_texts.chosen()]
    found += [RuleTrial(text, rng.randbytes(rules.ROOM)) for text in drawn(rng, count)]
    return found


def given(trials: list[RuleTrial]) -> dict[int, int]:
    """How many of the cases are answered under each number."""
    found = collections.Counter(trial.made()[0][0] for trial in trials)
    return {number: found[number] for number in NUMBERS}


def missing(trials: list[RuleTrial]) -> list[str]:
    """What the cases do not show: answers, and mutants unnoticed."""
    answers = given(trials)
    noticed = mutants.rule_counts((trial.text, trial.buffer) for trial in trials)
    return [f"rule {number}" for number in NUMBERS if answers[number] == 0] + [
        name for name in noticed if noticed[name] == 0
    ]


CASES_HEAD = """-- Written by compare_rules.py: cases with the answers of the Python model.
use Rattle.std.specs.Prelude.{ℕ, List, [], ◌∷◌, replicate}
use Rattle.text.specs.Field.{Text}
use Rattle.job.specs.Answer.{numbers}
use Rattle.rule_text.specs.RuleCall.{rule_answer, rule_buffer}

pub record Trial : Type 0 where
  pub text : Text
  pub buffer : List ℕ
  pub told : List ℕ
  pub after : List ℕ

unfoldable pub recomputed : Trial → Trial
recomputed c =
    record {
      text = c.text;
      buffer = c.buffer;
      told = numbers (rule_answer c.text c.buffer);
      after = rule_buffer c.text c.buffer;
    }
"""


def antt_trial(trial: RuleTrial) -> str:
    """A case with what the model says."""
    answer, after = trial.made()
    return f"""record {{
      text = {antt_bytes(trial.text)};
      buffer = {antt_bytes(trial.buffer)};
      told = {antt_numbers(answer)};
      after = {antt_bytes(after)};
    }}
"""


class RuleText(Crate[RuleTrial]):
    """The crate that defines the call on a rule text."""

    name, below, head = "rule_text", ["law", "text", "job"], CASES_HEAD

    def write(self, batch: list[RuleTrial]) -> None:
        """The cases and the propositions about them."""
        written = [antt_trial(trial) for trial in batch]
        starts = range(0, len(written), TOGETHER)
        groups = [written[start : start + TOGETHER] for start in starts]
        self.put_cases(*self.computed(groups))

    def told(self, case: RuleTrial) -> list[str]:
        """What the model says of a case."""
        answer, after = case.made()
        return [f"{answer}", f"buffer {shown(after)}"]
