#!/usr/bin/env python3
"""Measures how long given edits and their undos take.

    bench/edits.py [--program PATH] [--rounds N] [--phantom closure] DUMP EDIT..

An EDIT is a line such as `cut 0x1 e0` or `clearall weak`. In each round each EDIT is sent and then `undo`. It prints a row for each
EDIT: the least milliseconds of it and of its undo in all rounds, and how many objects fell and came back by it. Needed is Linux.
"""
from __future__ import annotations

import argparse
import sys
from pathlib import Path

sys.dont_write_bytecode = True
sys.path.insert(0, str(Path(__file__).resolve().parent.parent / "checks"))

from session import Program, Session, Wrong, add_program  # noqa: E402


def timed(session: Session, line: str) -> tuple[list[str], float]:
    """The words of the event that a line makes, and the milliseconds until its reply."""
    reply, seconds = session.timed(line)
    if reply[0] != "ok 1":
        raise Wrong(f"{line} is answered {reply[0]}")
    return reply[1].split(), seconds * 1000


def main() -> None:
    words = argparse.ArgumentParser(description=__doc__.splitlines()[0])
    add_program(words)
    words.add_argument("--rounds", type=int, default=5, help="how often each edit is made; 5 if not given")
    words.add_argument("--phantom", choices=["direct", "closure"], default="direct", help="as hdesk takes it")
    words.add_argument("dump", metavar="DUMP")
    words.add_argument("edits", metavar="EDIT", nargs="+")
    given = words.parse_args()
    print("| Edit | Fell | Came back | Edit, ms | Undo, ms |\n|---|---|---|---|---|")
    with Program(given.program, wait=600) as program:
        session = program.run(given.dump, "--phantom", given.phantom)
        rounds = [[(timed(session, edit), timed(session, "undo")) for edit in given.edits] for _ in range(given.rounds)]
        session.quit()
    for edit, times in zip(given.edits, zip(*rounds)):
        [(event, _), _] = times[0]
        least, back = (min(each[side][1] for each in times) for side in (0, 1))
        print(f"| `{edit}` | {event[3]} | {event[5]} | {least:.2f} | {back:.2f} |")


try:
    main()
except Wrong as wrong:
    sys.exit(f"edits: {wrong}")
