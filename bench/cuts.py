#!/usr/bin/env python3
"""Measures cuts near the roots, their undos, drops of roots, clears of kinds and cuts of fields in whole classes, one dump after
the other.

    bench/cuts.py [--program PATH] [--cuts N] [--seed N] DUMP..

The cuts are along chains: of random members of the classes with the most bytes each of the first six links, statics among them,
and of random roots the first slots. Each is cut and undone on a log that begins empty, and then once more behind all of these
pairs. A second session drops roots, clears each kind of references, and cuts each field of the classes with the most bytes in all
their objects. It prints a row of a table for each dump, in milliseconds. A cut that changes nothing is one by which no object
falls; it may still weaken some.
"""
from __future__ import annotations

import argparse
import random
import re
import sys
import time
from pathlib import Path
from statistics import median
from typing import NamedTuple

sys.dont_write_bytecode = True
sys.path.insert(0, str(Path(__file__).resolve().parent.parent / "checks"))

from session import Program, Session, Wrong, add_program  # noqa: E402

CLASSES, MEMBERS, LINKS, SLOTS, FIELDS = 40, 40, 6, 4, 64
KINDS = ("soft", "weak", "final", "phantom")
BLOCK = 65_536  # lines that are held at once
CUTTABLE = re.compile("[fes][0-9]+")


class Pair(NamedTuple):
    """An edit and its undo: how many objects fell, and the milliseconds of both."""

    fell: int
    edit: float
    undo: float


def picked(session: Session, line: str, most: int, rng: random.Random) -> list[list[str]]:
    """Random lines of a long reply, each split into words."""
    session.send(line.encode() + b"\n")
    [head] = session.reader.lines(1)
    if not head.startswith("ok"):
        raise Wrong(f"{line} is answered {head}")
    count, kept = int(head.split()[1]), []
    places = set(rng.sample(range(count), min(most, count)))
    for start in range(0, count, BLOCK):
        block = session.reader.lines(min(BLOCK, count - start))
        kept += [text.split() for place, text in enumerate(block, start) if place in places]
    return kept


def links_of(session: Session, rng: random.Random) -> list[tuple[str, str]]:
    """The first links of the chains of members of the classes with the most bytes, and the first slots of roots, in random order."""
    groups = sorted(session.rows("classes STRONG"), key=lambda row: -int(row[2]))[:CLASSES]
    links = {}
    for group, *_ in groups:
        for [member] in picked(session, f"members {group} STRONG", MEMBERS, rng):
            chain = session.rows(f"chain {member}")
            for before, link in zip(chain[:LINKS], chain[1 : LINKS + 1]):
                links[before[-1], link[0]] = None
    for _, _, held, mode in picked(session, "roots", 1000, rng):
        if mode == "stands":
            slots = [row[0] for row in session.rows(f"slots {held}") if row[3] == "stands" and CUTTABLE.fullmatch(row[0])]
            links.update(((held, slot), None) for slot in slots[:SLOTS])
    found = list(links)
    rng.shuffle(found)
    return found


def fields_of(session: Session) -> list[str]:
    """The cuts of the fields of the classes with the most bytes, each in all objects of its class."""
    groups = [group for group, *_ in session.rows("top STRONG") if group.startswith("0x")][:CLASSES]
    members = [(group, session.rows(f"head 1 members {group} STRONG")[0][0]) for group in groups]
    slots = [(group, row[0]) for group, member in members for row in session.rows(f"head {FIELDS} slots {member}")]
    return [f"cutall {group} {slot}" for group, slot in slots if slot[0] == "f"]


def pair(session: Session, line: str) -> Pair | None:
    """An edit and its undo, or nothing where the edit is refused."""
    reply, edit = session.timed(line)
    if reply[0] != "ok 1":
        return None
    back, undo = session.timed("undo")
    fell, came = int(reply[1].split()[3]), int(back[1].split()[5])
    if fell != came:
        raise Wrong(f"{fell} objects fell by {line}, and {came} came back")
    return Pair(fell, edit * 1000, undo * 1000)


def pairs(session: Session, lines: list[str]) -> list[Pair]:
    return [done for done in (pair(session, line) for line in lines) if done]


def shown(times: list[float]) -> str:
    """The median, the value below which 95 of 100 are, and the greatest."""
    ordered = sorted(times) or [0.0]
    return f"{median(ordered):.3f} / {ordered[len(ordered) * 95 // 100]:.2f} / {ordered[-1]:.1f}"


def slowest_of_none(done: list[Pair]) -> str:
    """The longest edit by which nothing fell."""
    return f"{max((each.edit for each in done if each.fell == 0), default=0.0):.1f}"


def most(done: list[Pair]) -> str:
    """The most objects that fell by one edit."""
    return f"{max((each.fell for each in done), default=0):,}"


def measure(program: Program, dump: str, cuts: int, rng: random.Random) -> str:
    """The row of a dump."""
    began = time.perf_counter()
    session = program.run(dump)
    session.ask("strength 0x0")
    opening = time.perf_counter() - began
    links = links_of(session, rng)[:cuts]
    lines = [f"cut {source} {slot}" for source, slot in links]
    first, again = pairs(session, lines), pairs(session, lines)
    session.quit()
    session = program.run(dump)
    roots = [f"drop {row[0]}" for row in picked(session, "roots", 2000, rng)]
    drops = pairs(session, roots)
    clears = pairs(session, [f"clearall {kind}" for kind in KINDS])
    fields = pairs(session, fields_of(session))
    session.quit()
    cells = [
        Path(dump).name, f"{opening:.2f}", str(len(first)), shown([each.edit for each in first]), shown([each.undo for each in first]),
        slowest_of_none(first), most(first), shown([each.edit for each in again]), str(len(drops)), shown([each.edit for each in drops]),
        shown([each.edit for each in clears]), str(len(fields)), shown([each.edit for each in fields]),
        shown([each.undo for each in fields]), slowest_of_none(fields), most(fields),
    ]
    return f"| {' | '.join(cells)} |"


def main() -> None:
    words = argparse.ArgumentParser(description=__doc__.splitlines()[0])
    add_program(words)
    words.add_argument("--cuts", type=int, default=1000, help="how many cuts, at most 1,000; 1,000 if not given")
    words.add_argument("--seed", type=int, default=1, help="draws others; 1 if not given")
    words.add_argument("dumps", metavar="DUMP", nargs="+")
    given = words.parse_args()
    print("| Dump | Opening, s | Cuts | Cut: median / 95 % / worst, ms | Undo | Worst where nothing fell | Most that fell "
          "| Cuts again behind the pairs | Drops | Drop | Clear of a kind | Fields cut in classes | Cut of these | Undo "
          "| Worst where nothing fell | Most that fell |")
    print("|---" * 16 + "|", flush=True)
    with Program(given.program, wait=600) as program:
        for dump in given.dumps:
            print(measure(program, dump, min(1000, given.cuts), random.Random(given.seed)), flush=True)


main()
