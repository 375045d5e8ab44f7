#!/usr/bin/env python3
"""Refuses each allocation of `hd_desks` in turn, and looks for a wrong answer or a wrong state of a desk.

The program of `crates/hd_desks` opens a board of two desks, and prints what a few calls answer and what the desks show after
each. Here the N-th allocation alone is refused (`refuse.rs`), for N = 1, 2, .. up to the first run in which nothing was left
to refuse. In each run a call has to answer rightly, or that memory ran out; and then all that it says has to hold:

- the board isn't opened, and nothing else is printed;
- a cut or an undo that isn't appended leaves the desk and the log;
- one that is appended without the steps to it leaves the desk behind, and the next refresh catches up;
- a refresh that is refused on the way has seen the log; a look takes no memory;
- a private board takes no memory, and leaves the desk.

Each outcome that can be met has to be met in a run. Needed are rustc and the GNU C library.
"""
from __future__ import annotations

import argparse
import itertools
import sys
from typing import Iterator

sys.dont_write_bytecode = True  # the checkout stays as it is

from refused import ALL_RIGHT, check_calls
from report import Report, perform, words_of
from session import TOP

# A look and a private board only get further owners of what is there, which takes no memory.
MET = [ALL_RIGHT, "open OutOfMemory", "cut OutOfMemory", "cut Accepted", "refresh Behind", "undo OutOfMemory", "undo Accepted"]


class Desk:
    """How many events a desk has seen, and to how many its state has come."""

    def __init__(self, who: int, events: int = 0) -> None:
        self.who, self.seen, self.front = who, events, events


class Calls:
    """The calls of a run, each with what it may answer. Raises ValueError where a line is wrong."""

    def __init__(self, lines: Iterator[str]) -> None:
        self.lines = lines
        self.log = 0
        self.strengths = ["Strong"]  # of the second array, by how many events there are
        self.faults: list[str] = []

    def read(self, *wanted: str) -> str:
        """The next line, which has to be one of those wanted."""
        line = next(self.lines, None)
        if line not in wanted:
            raise ValueError(f"{line!r} is none of {wanted!r}")
        return line

    def show(self, desk: Desk) -> None:
        self.read(f"desk {desk.who}: seen {desk.seen} front {desk.front} {self.strengths[desk.front]}")

    def append(self, desk: Desk, name: str, right: str, strength: str) -> None:
        """A cut or an undo."""
        line = self.read(f"{name}: {right}", f"{name}: OutOfMemory", f"{name}: Accepted {self.log}", f"{name}: Behind")
        answer = line.split(": ")[1]
        is_accepted = answer.startswith("Accepted")
        if answer == "Behind" and desk.front == desk.seen:
            raise ValueError("a desk that isn't behind was told so")
        if answer == right or is_accepted:
            self.log += 1
            self.strengths.append(strength)
            desk.seen = self.log
            desk.front = desk.front if is_accepted else self.log
        if answer != right:
            self.faults.append(f"{name} {answer.split()[0]}")

    def refresh(self, desk: Desk) -> None:
        answer = self.read("refresh: ok", "refresh: Behind").split(": ")[1]
        desk.seen = self.log
        if answer == "ok":
            desk.front = self.log
        elif desk.front == desk.seen:
            raise ValueError("a desk that isn't behind was told so")
        else:
            self.faults.append("refresh Behind")

    def follow(self) -> str:
        """Follows all calls. What was refused in them."""
        first, second = Desk(0), Desk(1)
        self.append(first, "cut", "event 0 fell 1 back 0", "Unreachable")
        is_cut = self.log == 1
        self.show(first)
        self.refresh(first)
        self.show(first)
        self.refresh(second)
        self.show(second)
        self.show(Desk(1, second.front))  # the desk of a private board
        self.show(second)
        if is_cut:
            self.append(first, "undo", "event 1 fell 0 back 1", "Strong")
        else:
            self.read("undo: NothingToUndo")
        self.show(first)
        self.refresh(first)
        self.show(first)
        self.read(f"close: events {self.log}")
        return ", ".join(self.faults) or ALL_RIGHT


def follow(lines: Iterator[str]) -> str:
    """What was refused in a run. Raises ValueError where a line is wrong."""
    first = next(lines, "")
    if first == "open: OutOfMemory":
        return "open OutOfMemory"
    return Calls(itertools.chain([first], lines)).follow()


def refuse(given: argparse.Namespace, report: Report) -> None:
    check_calls(given.program, report, follow, MET)


if __name__ == "__main__":
    perform(words_of(__doc__, seconds=120, program=TOP / "crates/hd_desks/out/hd_desks"), refuse)
