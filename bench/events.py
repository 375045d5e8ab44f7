#!/usr/bin/env python3
"""Measures what an event costs by how many events the log has already.

    bench/events.py [--program PATH] DUMP

One session fills its log with cuts of one reference, by which 1 to 100 objects fall, and with their undos; a second one with
added roots, which all stay live; a third one with cuts of different references, which stay live too. It prints the median
milliseconds of the sixteen cuts, undos, adds and live cuts that follow a number of events, and the seconds that each session
takes to fill its log. Then sixteen clients of a server fill a log together with added roots, and one that was still until then
asks for a strength. Needed is Linux.
"""
from __future__ import annotations

import argparse
import sys
import time
from pathlib import Path
from statistics import median

sys.dont_write_bytecode = True
sys.path.insert(0, str(Path(__file__).resolve().parent.parent / "checks"))

from session import Program, Server, Session, Wrong, add_program  # noqa: E402

EVENTS = 4096
BEFORE = [0, 256, 1024, 2048, 3072, 4064]
SPAN = 32  # events that are measured at each place


def small_link(session: Session) -> tuple[str, str, str]:
    """An object, and the reference of its chain by which it falls, with at most 100 objects in all."""
    groups = sorted(session.rows("classes STRONG"), key=lambda row: int(row[1]))
    for group, *_ in groups[:1000]:
        [member], *_ = session.rows(f"members {group} STRONG")
        chain = session.rows(f"chain {member}")
        if len(chain) > 1:
            reply = session.ask(f"cut {chain[-2][-1]} {chain[-1][0]}")
            if reply[0] == "ok 1" and 1 <= int(session.rows("undo")[0][5]) <= 100:
                return member, chain[-2][-1], chain[-1][0]
    raise Wrong("there is no reference by which 1 to 100 objects fall")


def filled(session: Session, lines: list[str]) -> tuple[list[float], float]:
    """The milliseconds of each event of a log that is filled with these lines, one after the other, and the seconds of all."""
    times = []
    for k in range(EVENTS):
        reply, seconds = session.timed(lines[k % len(lines)])
        times.append(seconds * 1000)
        if reply[0] != "ok 1":
            raise Wrong(f"{lines[k % len(lines)]} is answered {reply[0]}")
    session.quit()
    return times, sum(times) / 1000


def references(session: Session) -> list[str]:
    """Cuts of different fields and elements, as many as a log takes."""
    cuts: list[str] = []
    for group, *_ in sorted(session.rows("classes STRONG"), key=lambda row: int(row[1])):
        for [member] in session.rows(f"members {group} STRONG")[:64]:
            slots = session.rows(f"slots {member}")[:64]
            cuts += [f"cut {member} {slot}" for slot, _, _, mode in slots if mode == "stands" and slot[0] in "fe" and slot[1:].isdigit()]
        if len(cuts) >= EVENTS:
            return cuts[:EVENTS]
    raise Wrong(f"there are fewer than {EVENTS:,} references to cut")


def filled_together(server: Server, member: str) -> tuple[float, float]:
    """The seconds in which fifteen clients fill a log by turns of their own, and the milliseconds of the sixteenth's first reply."""
    late, *others = [server.connect() for _ in range(16)]
    late.ask(f"strength {member}")
    lines = f"add {member}\n".encode() * (EVENTS // 15)
    began = time.perf_counter()
    for client in others:
        client.send(lines)
    for client in others:
        for _ in range(EVENTS // 15):
            if client.hear()[0] != "ok 1":
                raise Wrong("an added root is refused")
    seconds = time.perf_counter() - began
    _, first = late.timed(f"strength {member}")
    for client in (late, *others):
        client.quit()
    return seconds, first * 1000


def main() -> None:
    words = argparse.ArgumentParser(description=__doc__.splitlines()[0])
    add_program(words)
    words.add_argument("dump", metavar="DUMP")
    given = words.parse_args()
    with Program(given.program, wait=600) as program:
        member, source, slot = small_link(program.run(given.dump))
        pairs, pairs_seconds = filled(program.run(given.dump), [f"cut {source} {slot}", "undo"])
        adds, adds_seconds = filled(program.run(given.dump), [f"add {member}"])
        lives, lives_seconds = filled(program.run(given.dump), references(program.run(given.dump)))
        together, late = filled_together(program.serve(given.dump, 16), member)
    print("| Events before | Cut, ms | Undo, ms | Add, ms | Live cut, ms |\n|---|---|---|---|---|")
    for at in BEFORE:
        cuts, undos = pairs[at : at + SPAN : 2], pairs[at + 1 : at + SPAN : 2]
        cells = [median(times) for times in (cuts, undos, adds[at : at + SPAN // 2], lives[at : at + SPAN // 2])]
        print(f"| {at:,} | {' | '.join(f'{cell:.3f}' for cell in cells)} |")
    print(f"{EVENTS:,} events: cuts and undos {pairs_seconds:.1f} s, adds {adds_seconds:.1f} s, live cuts {lives_seconds:.1f} s")
    print(f"fifteen clients fill a log in {together:.1f} s; one that is late by it answers in {late:.0f} ms")


try:
    main()
except Wrong as wrong:
    sys.exit(f"events: {wrong}")
