#!/usr/bin/env python3
"""Refuses each allocation of `hd_calls` in turn, and looks for a wrong answer or a state that has changed.

The program of `crates/hd_calls` opens two dumps, with 1 and with 16 workers: two arrays, and a weak reference and a finalizer
on one array. It searches them from scratch, checks what was found, asks a state, and steps to a next one. Here the N-th
allocation alone is refused (`refuse.rs`), for N = 1, 2, .. up to the first run in which nothing was left to refuse. In each
run a call has to answer rightly, or that memory ran out; and after each the state that was asked has to show the strengths
and totals that it showed before.

Each call that takes memory has to be refused in a run. Needed are rustc and the GNU C library.
"""
from __future__ import annotations

import argparse
import sys
from typing import Iterator, NamedTuple

sys.dont_write_bytecode = True  # the checkout stays as it is

from refused import ALL_RIGHT, check_calls
from report import Report, perform, words_of
from session import TOP


class Sample(NamedTuple):
    """A dump: its strengths, and the strong arrays of no class with their bytes, before and after the step; what is answered."""

    name: str
    before: tuple[str, str]
    after: tuple[str, str]
    answers: dict[str, int]
    step: str
    since: dict[str, int]


# Six classes come first: Reference, and those of soft, weak, final and phantom references and finalizers. Nothing reaches those of
# soft and phantom references.
CLASSES = "Strong Unreachable Strong Strong Unreachable Strong"
SAMPLES = [
    Sample(
        "arrays", ("Strong Strong", "2 12"), ("Strong Unreachable", "1 12"),
        {"chain": 1, "slots": 1, "into": 1, "roots": 1, "classes": 1, "top": 1, "groups": 1, "members": 2, "first member": 1},
        "event 0 fell 1 back 0", {"fell": 1, "moved": 1, "freed": 1},
    ),
    Sample(
        "references", (f"{CLASSES} Strong Strong Strong Weak", "1 8"), (f"{CLASSES} Strong Strong Strong Final", "1 8"),
        {"chain": 2, "slots": 1, "into": 2, "roots": 1, "classes": 4, "top": 4, "groups": 4, "members": 1, "first member": 1},
        "event 0 fell 0 back 0", {"fell": 0, "moved": 1, "freed": 0},
    ),
]
# A mark only gets further owners of what is there. A list without items takes no memory, so `fell` is refused in one dump alone.
MET = ["graph", "search", "settled", "state", *SAMPLES[0].answers, "step", "fell", "moved", "freed"]


class Calls:
    """The calls of a run, each with what it may answer. Raises ValueError where a line is wrong."""

    def __init__(self, lines: Iterator[str]) -> None:
        self.lines = lines
        self.refused: list[str] = []

    def read(self, *wanted: str) -> str:
        """The next line, which has to be one of those wanted."""
        line = next(self.lines, None)
        if line not in wanted:
            raise ValueError(f"{line!r} is none of {wanted!r}")
        return line

    def is_answered(self, name: str, right: str) -> bool:
        """Whether a call answers, and not that memory ran out."""
        if self.read(f"{name}: {right}", f"{name}: OutOfMemory") == f"{name}: {right}":
            return True
        self.refused.append(name)
        return False

    def search(self, strengths: str) -> None:
        if self.is_answered("search", strengths):
            self.is_answered("settled", "true")

    def ask(self, answers: dict[str, int], shown: str) -> None:
        """Queries, after each of which the state shows what it did."""
        for name, right in answers.items():
            self.is_answered(name, str(right))
            self.read(shown)

    def step(self, sample: Sample) -> None:
        if self.is_answered("step", sample.step):
            shown = " ".join(sample.after)
            self.read(shown)
            self.ask(sample.since, shown)
            self.search(sample.after[0])

    def follow_state(self, sample: Sample, shown: str) -> None:
        """The calls on a state, whose first line was read."""
        self.search(sample.before[0])
        self.ask(sample.answers, shown)
        self.step(sample)
        self.read(shown)

    def follow(self) -> str:
        """Follows all calls. What was refused in them."""
        for workers in (1, 16):
            for sample in SAMPLES:
                self.read(f"{sample.name}, workers {workers}")
                shown = " ".join(sample.before)
                line = self.read(shown, "graph: OutOfMemory", "state: OutOfMemory")
                if line == shown:
                    self.follow_state(sample, shown)
                else:
                    self.refused.append(line.split(":")[0])
        return ", ".join(self.refused) or ALL_RIGHT


def refuse(given: argparse.Namespace, report: Report) -> None:
    check_calls(given.program, report, lambda lines: Calls(lines).follow(), MET)


if __name__ == "__main__":
    perform(words_of(__doc__, seconds=120, program=TOP / "crates/hd_calls/out/hd_calls"), refuse)
