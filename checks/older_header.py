#!/usr/bin/env python3
"""Opens a dump as JDK 8 would have begun it.

A copy whose header says 1.0.1 instead of 1.0.2 has to have the same counts and totals, and one that says 1.0.3 has to be
refused. The copy needs as much room in the folder of temporary files as the dump has.
"""
from __future__ import annotations

import argparse
import shutil
import sys
import tempfile
from pathlib import Path

sys.dont_write_bytecode = True  # the checkout stays as it is

from dumps import Format
from report import Report, perform, readable, words_of
from session import Ended, Program, Wrong


def begin_with(path: Path, version: str) -> None:
    """Writes another version into the header of a dump."""
    with open(path, "r+b") as file:
        file.write(Format(version=version).magic())


def compare(given: argparse.Namespace, report: Report) -> None:
    with Program(given.program, given.seconds) as program, tempfile.TemporaryDirectory() as room:
        with open(given.dump, "rb") as file:
            magic = Format().magic()
            if file.read(len(magic)) != magic:
                raise Wrong(f"{given.dump} does not begin with {magic!r}")
        wanted, copy = program.stat(given.dump), Path(room) / "dump"
        shutil.copyfile(given.dump, copy)
        begin_with(copy, "1.0.1")
        report.note(program.stat(str(copy)) == wanted, "1.0.1 has the same counts and totals")
        begin_with(copy, "1.0.3")
        refused = program.finish([given.program, "stat", str(copy)])
        report.note(refused == Ended(2, "", "hdesk: BadMagic at 0\n"), "1.0.3 is refused with BadMagic at 0")


if __name__ == "__main__":
    taken = words_of(__doc__, seconds=120)
    taken.add_argument("dump", metavar="DUMP", type=readable, help="a dump of the format JAVA PROFILE 1.0.2")
    perform(taken, compare)
