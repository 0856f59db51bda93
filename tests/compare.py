"""The models against the project's formal definitions.

    compare.py CLONE [--seed N] [--count N] [--texts N] [--pages N] [--batch N]

Takes the cases of `trials.py` (the gate's, where no option says otherwise), lets
the model of `checker.py` answer them, and has the prover compute the definitions
of the crate cells on them (`prover.py`).  A long finish is computed round by
round, and the laws of `RandomRounds.antt` make its answer of the rounds.  Then
the same for rule text, as `compare_rules.py` has it, with TEXTS draws besides,
and for pages, as `compare_pages.py` has it, with PAGES draws besides.
CLONE is changed: give a clone of the repository, not the repository.

The cases must show every answer of every call and notice every mutant of
`mutants.py`, but for those of truth and of the program `page`; where they do not,
the exit status is 1.
"""

from __future__ import annotations

import argparse
import collections
import pathlib
import sys
from dataclasses import dataclass
from typing import Iterator

import checker
import compare_pages
import compare_rules
import mutants
import tables
import trials
from prover import (
    Crate,
    antt_definition,
    antt_law,
    antt_list,
    antt_numbers,
    antt_text,
    plant,
)
from trials import Trial

# --------------------------------------------------------------------------
# Writing cases
# --------------------------------------------------------------------------


@dataclass
class Part:
    """Calls of a case in turn, with what the model said of each."""

    text: bytes
    start: bytes
    made: list[tables.Call]
    lines: list[int]

    def cost(self) -> int:
        """About what the prover takes for it."""
        return sum(trials.call_cost(one) for one in self.made)


@dataclass
class LongFinish:
    """An accepted finish, by its rounds."""

    text: bytes
    tables: list[bytes]  # before each round; the last round fills nothing
    told: list[int]

    def filled(self) -> list[int]:
        """How many cells each round fills."""
        pairs = zip(self.tables, self.tables[1:])
        return [sum(map(int.__ne__, t, u)) for t, u in pairs] + [0]

    def empty(self) -> int:
        """The empty cells of the fragments before the first round."""
        cells = tables.inside(checker.parse(self.text))
        return sum(self.tables[0][cell] == checker.EMPTY for cell in cells)


def before_rounds(text: bytes, table: bytes) -> list[bytes]:
    """The tables before each round of finish."""
    after = bytearray(table)
    model = checker.Rounds(checker.parse(text), after)
    found = [table]
    while model.round() > 0:
        found.append(bytes(after))
    return found


def parted(trial: Trial) -> tuple[list[Part], list[LongFinish]]:
    """A case as parts that are not too dear, and its long finishes."""
    parts, finishes = [Part(trial.text, trial.table, [], trial.lines)], []
    table = trial.table
    for one in trial.made():
        if trials.is_long(one):
            before = before_rounds(one.text, table)
            finishes.append(LongFinish(one.text, before, one.answer[2:]))
            parts.append(Part(one.text, one.table, [], []))
        else:
            if parts[-1].cost() + trials.call_cost(one) > TOGETHER:
                parts.append(Part(one.text, table, [], []))
            parts[-1].made.append(one)
        table = one.table
    return [part for part in parts if part.made or part.lines], finishes


def grouped(parts: list[Part]) -> list[list[Part]]:
    """The parts for each proposition."""
    groups: list[list[Part]] = [[]]
    for part in parts:
        if groups[-1] and sum(one.cost() for one in [*groups[-1], part]) > TOGETHER:
            groups.append([])
        groups[-1].append(part)
    return groups


TOGETHER = 1_000_000
"""The cost of one proposition: antt gives each 50,000,000 steps and no more,
which are some four times as much."""


def antt_part(part: Part) -> str:
    """A part with what the model says."""
    calls = [" ".join(["call." + one.name, *map(str, one.numbers)]) for one in part.made]
    lines = [antt_numbers(checker.line(part.text, at)) for at in part.lines]
    return f"""record {{
      text = {antt_text(part.text)};
      start = {antt_numbers(part.start)};
      calls = {antt_list(calls)};
      lines = {antt_numbers(part.lines)};
      reads = {antt_numbers(list(checker.read(part.text)))};
      parts = {antt_list(lines)};
      told = {antt_list([antt_numbers(one.answer) for one in part.made])};
      tables = {antt_list([antt_numbers(one.table) for one in part.made])};
    }}
"""


CASES_HEAD = """-- Written by compare.py: cases with the answers of the Python model.
use Rattle.std.specs.Prelude.{ℕ, List, [], ◌∷◌, map}
use Rattle.text.specs.Field.{Text}
use Rattle.job.specs.Answer.{numbers}
use Rattle.job.specs.Read.{read_answer, line_of}
use Rattle.cells.specs.Table.{Table}
use Rattle.cells.specs.Calls.{Call, answer, after, width}
use Rattle.cells.specs.Calls as call
use Rattle.cells.specs.Cases.{bytes, answers}

pub record Trial : Type 0 where
  pub text : Text
  pub start : Table
  pub calls : List Call
  pub lines : List ℕ
  pub reads : List ℕ
  pub parts : List Text
  pub told : List (List ℕ)
  pub tables : List Table

unfoldable pub tables_after : Text → Table → List Call → List Table
tables_after x t [] = []
tables_after x t (c ∷ cs) = after c x t ∷ tables_after x (after c x t) cs

unfoldable pub recomputed : Trial → Trial
recomputed c =
    record {
      text = c.text;
      start = c.start;
      calls = c.calls;
      lines = c.lines;
      reads = numbers (read_answer c.text);
      parts = map (line_of c.text) c.lines;
      told = answers c.text c.start c.calls;
      tables = tables_after c.text c.start c.calls;
    }
"""


ROUNDS = """-- Written by compare.py: the answer of finish from its rounds.
use Rattle.std.specs.Prelude.{◌≡◌, ℕ, zero, suc, ◌+◌, false, eqb, [], ◌∷◌}
use Rattle.std.proofs.Common.{refl, ◌∙◌, ap}
use Rattle.std.proofs.Math.Option as opt
use Rattle.text.specs.Field.{Text}
use Rattle.job.specs.Job.{decode}
use Rattle.job.specs.Answer.{accepted}
use Rattle.job.specs.Question.{refusal}
use Rattle.job.proofs.QuestionLaws.{answered_none, afterwards_none}
use Rattle.cells.specs.Table.{Table, filled, empty_cells}
use Rattle.cells.specs.Finish.{Finished, round, rounds_from, verdict}
use Rattle.cells.specs.Finish as finishing
use Rattle.cells.specs.Calls.{finish, questions, width, answer, after, told, left}

abbrev finished : Table → ℕ → ℕ → Finished
finished t r c = record { table = t; rounds = r; cells = c }

-- A round of t fills c cells and comes to u.
abbrev pub IsRound : Text → Table → Table → ℕ → Type 0
IsRound x t u c = (round (decode x) t ≡ u) × (filled t u ≡ c)

-- At most n rounds, and one, of t: r rounds that fill c cells and come to u.
abbrev pub Rounds : Text → ℕ → Table → Table → ℕ → ℕ → Type 0
Rounds x n t u r c = rounds_from (decode x) n t ≡ finished u r c

-- What finish has to know besides.
abbrev pub Asked : Text → Table → Table → ℕ → ℕ → Type 0
Asked x t u n v = (refusal (questions finish x t) ≡ opt.none) × (empty_cells (decode x) t ≡ n) × (verdict (decode x) u ≡ v)

abbrev pub Answer : Text → Table → Table → ℕ → ℕ → ℕ → Type 0
Answer x t u v r c = (answer finish x t ≡ accepted (v ∷ r ∷ c ∷ [])) × (after finish x t ≡ u)

module _ (x : Text) where
  pub last_round : (n : ℕ) (t u : Table) → IsRound x t u 0 → Rounds x n t u 1 0
  unfolding rounds_from
  last_round zero t u (e, none) = rw e (rw none refl)
  last_round (suc n) t u (e, none) = rw e (rw none refl)

  pub more_rounds :
      (n : ℕ) (t u v : Table) (r c d : ℕ)
      → IsRound x t u c
      → eqb c 0 ≡ false
      → Rounds x n u v r d
      → Rounds x (suc n) t v (suc r) (c + d)
  unfolding rounds_from
  more_rounds n t u v r c d (e, count) some later = rw e (rw count (rw some (rw later refl)))

  pub finish_answer : (t u : Table) (n v r c : ℕ) → Asked x t u n v → Rounds x n t u r c → Answer x t u v r c
  unfolding answer after told left finishing.finish
  finish_answer t u n v r c (asked, empty, value) rounds =
      let done : finishing.finish (decode x) t ≡ finished u r c = ap (λ m. rounds_from (decode x) m t) empty ∙ rounds in
      (answered_none (questions finish x t) (width finish) (told finish (decode x) t) asked
      ∙ ap (λ F. accepted (verdict (decode x) F.table ∷ F.rounds ∷ F.cells ∷ [])) done
      ∙ ap (λ w. accepted (w ∷ r ∷ c ∷ [])) value,
      afterwards_none (questions finish x t) t (left finish (decode x) t) asked ∙ ap (λ F. F.table) done)
"""


ROUND_NAMES = "IsRound, Rounds, Asked, Answer, last_round, more_rounds, finish_answer"


class WrittenFinish:
    """A long finish in antt: definitions, and laws about them."""

    def __init__(self, finish: LongFinish, name: str) -> None:
        self.finish = finish
        self.name = name
        self.text = f"{name}_text"
        self.tables = [f"{name}_table{i}" for i in range(len(finish.tables))]
        self.last = self.tables[-1]

    def definitions(self) -> dict[str, str]:
        """What the rounds are about."""
        text = antt_text(self.finish.text)
        found = {self.text: antt_definition(self.text, "Text", text)}
        for name, table in zip(self.tables, self.finish.tables):
            found[name] = antt_definition(name, "Table", antt_numbers(table))
        return found

    def rounds(self, unfolding: str) -> Iterator[str]:
        """Each round, computed."""
        after = [*self.tables[1:], self.last]
        for i, (t, u, filled) in enumerate(zip(self.tables, after, self.finish.filled())):
            yield antt_law(
                f"{self.name}_round{i}",
                f"IsRound {self.text} {t} {u} {filled}",
                "(refl, refl)",
                unfolding,
                self.text,
                t,
                u,
            )

    def sums(self) -> Iterator[str]:
        """The rounds from each table on, from the last back."""
        filled, fuel = self.finish.filled(), self.finish.empty()
        for i in reversed(range(len(filled))):
            t, more, here = self.tables[i], len(filled) - i - 1, f"{self.name}_round{i}"
            proof = f"last_round {self.text} {fuel - i} {t} {t} {here}"
            if more:
                proof = (
                    f"more_rounds {self.text} {fuel - i - 1} {t} {self.tables[i + 1]} "
                    f"{self.last} {more} {filled[i]} {sum(filled[i + 1 :])} "
                    f"{here} refl {self.name}_from{i + 1}"
                )
            statement = (
                f"Rounds {self.text} {fuel - i} {t} {self.last} {more + 1} {sum(filled[i:])}"
            )
            yield antt_law(f"{self.name}_from{i}", statement, proof)

    def answer(self, unfolding: str) -> Iterator[str]:
        """The whole answer."""
        verdict, rounds, cells = self.finish.told
        ends = f"{self.text} {self.tables[0]} {self.last}"
        fuel = self.finish.empty()
        yield antt_law(
            f"{self.name}_asked",
            f"Asked {ends} {fuel} {verdict}",
            "(refl, refl, refl)",
            unfolding,
            *ends.split(),
        )
        yield antt_law(
            f"{self.name}_answer",
            f"Answer {ends} {verdict} {rounds} {cells}",
            f"finish_answer {ends} {fuel} {verdict} {rounds} {cells} "
            f"{self.name}_asked {self.name}_from0",
        )


class Jobs(Crate[Trial]):
    """The crate that defines the calls on a job."""

    name, below, head = "cells", ["law", "text", "job"], CASES_HEAD

    def __init__(self, clone: pathlib.Path) -> None:
        super().__init__(clone)
        self.put("RandomRounds", [ROUNDS])

    def write(self, batch: list[Trial]) -> None:
        """The cases and the propositions about them."""
        parts: list[Part] = []
        finishes: list[LongFinish] = []
        for trial in batch:
            own, long = parted(trial)
            parts += own
            finishes += long
        groups = [[antt_part(part) for part in group] for group in grouped(parts)]
        defined, laws = self.computed(groups)
        for i, finish in enumerate(finishes):
            written = WrittenFinish(finish, f"finish{i}")
            defined.update(written.definitions())
            laws += written.rounds(self.unfolding)
            laws += written.sums()
            laws += written.answer(self.unfolding)
        rounds = f"use Rattle.cells.proofs.RandomRounds.{{{ROUND_NAMES}}}"
        self.put_cases(defined, laws, (rounds,))

    def told(self, case: Trial) -> list[str]:
        """What the model says of each call."""
        return [
            f"{one.name} {one.numbers} {one.answer} {list(one.table)}"
            for one in case.made()
        ]


# --------------------------------------------------------------------------
# The program
# --------------------------------------------------------------------------


def describe(drawn: list[Trial]) -> None:
    """What the cases are."""
    notes = collections.Counter(trial.note.split(":")[0] for trial in drawn)
    kinds: collections.Counter[int] = collections.Counter()
    answers: collections.Counter[str] = collections.Counter()
    for trial in drawn:
        if checker.read(trial.text)[0] == 0:
            kinds.update({rule.kind for rule in checker.parse(trial.text).rules})
        answers += trials.given(trial)
    print("cases:", dict(notes))
    print("jobs with each kind:", {n: kinds[n] for n in sorted(kinds)})
    for name, numbers in trials.QUESTIONS.items():
        given = {n: answers[f"{name} {n}"] for n in [0, *numbers]}
        print(f"{name}:", given)
    print("line:", {name: answers[name] for name in sorted(answers) if "line" in name})
    for name in (trials.AT_ONCE, trials.BY_ROUNDS):
        print(f"{name}: {answers[name]}")


def tell(name: str, missing: list[str], noticed: int, given: int) -> None:
    """What the cases show."""
    if missing:
        print(f"{name}: not shown by any case:", missing)
    else:
        print(f"{name}: all {noticed} mutants noticed, each of {given} answers given")


def main() -> int:
    """The program."""
    options = argparse.ArgumentParser(description=__doc__)
    options.add_argument("clone", type=pathlib.Path)
    options.add_argument("--seed", type=int, default=trials.SEED)
    options.add_argument("--count", type=int, default=trials.COUNT)
    options.add_argument("--texts", type=int, default=0)
    options.add_argument("--pages", type=int, default=0)
    options.add_argument("--batch", type=int, default=200)
    options.add_argument("--plant", action="store_true", help="make three cases wrong")
    chosen = options.parse_args()
    jobs = trials.trials(chosen.seed, chosen.count)
    texts = compare_rules.cases(chosen.seed, chosen.texts)
    papers = compare_pages.cases(chosen.seed, chosen.pages)
    describe(jobs)
    print("rule:", compare_rules.given(texts))
    print("pages:", compare_pages.given(papers))
    unshown = []
    for name, part, cases, models, answers in (
        ("calls", trials, jobs, mutants.MODELS, trials.WANTED),
        ("rule", compare_rules, texts, mutants.RULE_MODELS, compare_rules.NUMBERS),
        ("pages", compare_pages, papers, mutants.PAGE_MODELS, compare_pages.NUMBERS),
    ):
        missing = part.missing(cases)
        tell(name, missing, len(models), len(answers))
        unshown += missing
    if chosen.plant:
        for cases in (jobs, texts, papers):
            plant(cases, chosen.seed)
    # Pages first: their crate names cells, which is proved again once it has cases.
    found = compare_pages.PageText(chosen.clone).compare(papers, chosen.batch)
    found += Jobs(chosen.clone).compare(jobs, chosen.batch)
    found += compare_rules.RuleText(chosen.clone).compare(texts, chosen.batch)
    return 1 if found or unshown else 0


if __name__ == "__main__":
    sys.exit(main())
