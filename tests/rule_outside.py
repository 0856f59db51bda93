"""The program `rule` against the model, from outside.

    rule_outside.py PROGRAM [--seed N] [--count N]

Runs the program on rule texts and compares all that it prints with what the
model of rules.py says.  A crash, a hang, any other output and more bytes read
than it may are differences too, and so are two spellings of one rule with two
outputs.

Always run are the examples, the texts of `rule_texts.py` that come with their
answers, those on which the definitions are computed, and short ones.  To these
come COUNT draws of a rule in three spellings, with damages of it.  It fails,
too, where no text is accepted, none refused under 22 or 23, or where no line of
some kind is written.
"""

from __future__ import annotations

import itertools
import random
import sys
from typing import Iterator

import checker
import generate
import rule_texts
import rules
from outside import EXAMPLES, Case, Comparison, Run, options

# --------------------------------------------------------------------------
# The cases
# --------------------------------------------------------------------------


def endings(name: str, text: bytes, told: bytes | None = None) -> Iterator[Case]:
    """A text with a final byte 10, and without where that is the same text."""
    yield Case(f"{name}, byte 10", text + b"\n", told)
    if not text.endswith(b"\n"):
        yield Case(name, text, told)


def ended(rng: random.Random, name: str, text: bytes) -> Case:
    """One of these."""
    return rng.choice(list(endings(name, text)))


def named_cases() -> Iterator[Case]:
    """The examples, and texts that come with their answers."""
    for path in sorted(EXAMPLES.glob("*.rule")):
        for slowly in (False, True):
            yield Case(f"examples/{path.name}", path.read_bytes(), slowly=slowly)
    for path in sorted(EXAMPLES.glob("*.job")):
        told = generate.written_line((22, 0))
        yield Case(f"examples/{path.name}", path.read_bytes(), told)
    for text in rule_texts.REFUSED:
        yield from endings("refused", text, generate.written_line((22, 0)))
    for told in [*rule_texts.ACCEPTED, *rule_texts.limits()]:
        name = f"told {told.number}, {told.lines} lines, {len(told.text)} bytes"
        line = generate.written_line((told.number, told.lines))
        for case in endings(name, told.text):
            case.told = line + rules.printed(case.text)[len(line) :]
            yield case
    for i, (text, _) in enumerate(rule_texts.chosen()):
        yield from endings(f"chosen {i}", text)
    for length in (512, 513, 1_000_000):
        for byte in (b"\n", b"\0", b"!", b"p"):
            yield Case(f"{byte!r} {length} times", byte * length)
            yield Case(f"p0 and {byte!r} to {length}", b"p0".ljust(length, byte))


def short_cases(rng: random.Random) -> Iterator[Case]:
    """Every text of up to two tokens, those of up to four that are rules, and
    some of the others."""
    for count in range(5):
        for tokens in rule_texts.short(count):
            is_rule = rules.tree(rule_texts.spaced(tokens)) is not None
            if count < 3 or is_rule or rng.randrange(60) == 0:
                yield ended(rng, "short", rule_texts.spaced(tokens))
            if count < 3 or is_rule or rng.randrange(200) == 0:
                yield ended(rng, "short, together", rule_texts.together(tokens))


def drawn_cases(rng: random.Random, count: int) -> Iterator[Case]:
    """Rules in three spellings, damages of them, and noise."""
    for i in range(count):
        tree = rule_texts.some_tree(rng, rng.choice([6, 12, 24]))
        for text in rule_texts.spellings(rng, tree):
            case = ended(rng, f"drawn {i}", text)
            if len(text) <= rules.LONGEST:
                case.structure = f"drawn {i}"
            yield case
        for text in rule_texts.spoilt(rng, tree):
            yield ended(rng, f"spoilt {i}", text)
        for text in rule_texts.noise(rng, 1):
            yield ended(rng, f"noise {i}", text)


# --------------------------------------------------------------------------
# The comparison
# --------------------------------------------------------------------------


class Rules(Comparison):
    """The program `rule`.  Its own buffer has the right length."""

    wanted = (0, 22, 23)

    def __init__(self, program: str) -> None:
        super().__init__(program)
        self.outputs: dict[str, bytes] = {}
        self.kinds: set[int] = set()

    def judged(self, case: Case) -> tuple[bytes, bytes, list[str]]:
        """What both print, and where another spelling gives something else."""
        at_work = Run(self.program, case)
        told = rules.printed(case.text)
        out, wrong = at_work.end(rules.MOST_READ)
        if case.structure and self.outputs.setdefault(case.structure, out) != out:
            wrong.append("another spelling has another output")
        self.numbers[int(told[:5])] += 1
        self.kinds.update(int(line[:5]) for line in told.splitlines()[1:])
        return told, out, wrong

    def summary(self) -> str:
        """One line."""
        return (
            f"{sum(self.numbers.values())} rule texts: {self.count()}; "
            f"{len(self.outputs)} rules in several spellings; "
            f"{len(self.differences)} differ"
        )

    def missing(self) -> Iterator[str]:
        """Lines of each kind, too."""
        yield from super().missing()
        for kind in checker.KINDS:
            if kind not in self.kinds:
                yield f"no line of kind {kind} was written"


def main() -> int:
    """The program."""
    chosen = options(__doc__, 200)
    rng = random.Random(chosen.seed)
    cases = itertools.chain(
        named_cases(),
        short_cases(rng),
        drawn_cases(rng, chosen.count),
    )
    return Rules(chosen.program).run(cases)


if __name__ == "__main__":
    sys.exit(main())
