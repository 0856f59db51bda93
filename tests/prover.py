"""Definitions computed by the prover, on cases that a model has answered.

The cases are written as lists into CLONE/crates/CRATE/proofs/ (`RandomCases.antt`,
and `Random.antt` with one proposition for several cases: what the definitions
compute equals what the model said, by `refl`), and `rt check` is run in that
crate's folder, over what earlier checks kept.  A batch that is not proved is
halved until the cases that differ are found.

Every definition of the crates that are named can be computed: all that these
declare as `unfoldable pub` is unfolded.
"""

from __future__ import annotations

import pathlib
import random
import re
import subprocess
import time
from typing import Generic, Protocol, TypeVar

# --------------------------------------------------------------------------
# Writing antt
# --------------------------------------------------------------------------


def antt_list(items: list[str]) -> str:
    """A list in antt."""
    return "(" + " ∷ ".join([*items, "[]"]) + ")"


def antt_numbers(numbers: list[int] | bytes) -> str:
    """A list of numbers in antt."""
    return antt_list([str(n) for n in numbers])


def antt_text(text: bytes) -> str:
    """A text in antt: quoted where every byte may stand in quotes."""
    if all(byte == 10 or 32 <= byte < 127 and byte not in b'"\\' for byte in text):
        return '(bytes "' + text.decode().replace("\n", "\\n") + '")'
    return antt_numbers(text)


def antt_definition(name: str, sort: str, value: str) -> str:
    """A definition that can be unfolded."""
    return f"unfoldable pub {name} : {sort}\n{name} =\n    {value}\n"


def antt_law(name: str, statement: str, proof: str, *unfolding: str) -> str:
    """A proposition with its proof."""
    names = dict.fromkeys(unfolding)
    line = " ".join(names) + "\n" if names else ""
    return f"\npub {name} : {statement}\n{line}{name} = {proof}"


# --------------------------------------------------------------------------
# Proving
# --------------------------------------------------------------------------


class Answered(Protocol):
    """A case that a model answers."""

    lie: bool  # planted: it is answered wrongly


Case = TypeVar("Case", bound=Answered)


class Crate(Generic[Case]):
    """A crate of a clone of the repository, and what is written into it."""

    name: str

    below: list[str]
    """The crates whose definitions are computed, too."""

    head: str
    """What stands before the cases: their sort, `Trial`, and a function
    `recomputed` that has in place of the model's words what is computed."""

    def __init__(self, clone: pathlib.Path) -> None:
        self.clone = clone
        self.proofs = clone / "crates" / self.name / "proofs"
        self.uses = [
            "use Rattle.std.specs.Prelude.{◌≡◌, map, refl}",
            "use Rattle.std.proofs.Math.Option.{Option-elim}",
        ]
        self.unfolding = "unfolding Option-elim"
        for crate in [*self.below, self.name]:
            self.unfold(crate)
        self.helpers = re.findall(r"^unfoldable pub (\S+)", self.head, re.M)

    def unfold(self, crate: str) -> None:
        """Import and unfold the definitions of a crate."""
        for path in sorted((self.clone / "crates" / crate / "specs").glob("*.antt")):
            for name in re.findall(r"^ *unfoldable pub (\S+)", path.read_text(), re.M):
                alias = f"{crate}_{path.stem.lower()}_{name}"
                self.uses.append(
                    f"use Rattle.{crate}.specs.{path.stem}.{{{name} as {alias}}}"
                )
                self.unfolding += f" {alias}"

    def put(self, name: str, lines: list[str]) -> None:
        """A file of the crate's proofs."""
        lib = self.proofs / "Lib.antt"
        mods = lib.read_text()
        if f"mod {name}\n" not in mods:
            lib.write_text(f"{mods}pub mod {name}\n")
        (self.proofs / f"{name}.antt").write_text("\n".join(lines) + "\n")

    def computed(self, groups: list[list[str]]) -> tuple[dict[str, str], list[str]]:
        """Groups of cases as definitions, by name, and a proposition for each."""
        defined, laws = {}, []
        for i, group in enumerate(groups):
            name = f"cases{i}"
            defined[name] = antt_definition(name, "List Trial", antt_list(group))
            statement = f"map recomputed {name} ≡ {name}"
            unfolding = [self.unfolding, *self.helpers, name]
            laws.append(antt_law(f"proved_{name}", statement, "refl", *unfolding))
        return defined, laws

    def put_cases(
        self, defined: dict[str, str], laws: list[str], uses: tuple[str, ...] = ()
    ) -> None:
        """Definitions, by name, and propositions about them."""
        self.put("RandomCases", [self.head, *defined.values()])
        names = ", ".join([*self.helpers, *defined])
        own = f"use Rattle.{self.name}.proofs.RandomCases.{{{names}}}"
        about = "-- Written by prover.py: the definitions give what the model gave."
        self.put("Random", [about, *self.uses, own, *uses, *laws])

    def write(self, batch: list[Case]) -> None:
        """The cases and the propositions about them."""
        raise NotImplementedError

    def told(self, case: Case) -> list[str]:
        """What the model says of a case, in lines to be printed."""
        raise NotImplementedError

    def check(self, batch: list[Case]) -> tuple[int, str]:
        """The exit status of `rt check` with these cases (0: all proved, 1: some
        case differs, 3: no verdict, for too long), and what it printed."""
        self.write(batch)
        ran = subprocess.run(
            ["rt", "check"],
            cwd=self.proofs.parent,
            capture_output=True,
            text=True,
        )
        return ran.returncode, f"exit {ran.returncode}\n{ran.stdout}{ran.stderr}"

    def differing(self, batch: list[Case]) -> list[tuple[Case, int, str]]:
        """The cases of a batch that are not proved, found by halving."""
        status, said = self.check(batch)
        if status == 0:
            return []
        if len(batch) == 1:
            return [(batch[0], status, said)]
        middle = len(batch) // 2
        return self.differing(batch[:middle]) + self.differing(batch[middle:])

    def compare(self, cases: list[Case], batch: int) -> int:
        """Compare the cases, so many at once, and print those that are not
        proved; how many these are."""
        found: list[tuple[Case, int, str]] = []
        for start in range(0, len(cases), batch):
            some = cases[start : start + batch]
            began = time.time()
            status, _ = self.check(some)
            print(
                f"{self.name}, cases {start} to {start + len(some) - 1}: "
                f"{'proved' if status == 0 else f'NOT PROVED ({status})'}, "
                f"{time.time() - began:.1f} s",
                flush=True,
            )
            if status != 0:
                found += self.differing(some)
        for case, status, said in found:
            how = "DIFFERS" if status == 1 else "NO VERDICT"
            print(f"{how}: case {cases.index(case)}")
            print(case)
            for line in self.told(case):
                print("   model:", line)
            print("   prover:", said[:2000])
        differ = sum(status == 1 for _, status, _ in found)
        print(
            f"{self.name}: {len(cases)} cases, {differ} differ, "
            f"{len(found) - differ} without verdict"
        )
        return len(found)


def plant(cases: list[Case], seed: int) -> None:
    """Make one case wrong."""
    at = random.Random(seed).randrange(len(cases))
    cases[at].lie = True
    print(f"planted in case {at}")
