#!/usr/bin/env python3
"""Measures what each query takes on a dump of `tools/real_dump.sh` that is open.

    bench/queries.py [--program PATH] FILE

Prints a line for each query: its name, how many lines it was answered, and milliseconds, the least of five tries (of one
where it takes more than two seconds); and then the most memory of the process before the queries and after them. A
long chain is that of a node some thousand references behind the head of a linked list. The program is the script `hdesk` where
nothing is said. Needed are Linux and Python 3.8 or later.
"""
import argparse
import sys
import time
from pathlib import Path

sys.dont_write_bytecode = True  # the checkout stays as it is
sys.path.insert(0, str(Path(__file__).resolve().parent.parent / "checks"))

from session import Program, Wrong, add_program

LONGEST_WAIT = 3600.0


def measure(desk, name, line):
    best = None
    for _ in range(5):
        began = time.monotonic()
        lines = desk.rows(line)
        took = time.monotonic() - began
        best = took if best is None else min(best, took)
        if took > 2:
            break
    print(f"{name}: {len(lines)} lines, {best * 1000:.2f} ms", flush=True)
    return lines


def peak(desk):
    with open(f"/proc/{desk.process.pid}/status") as status:
        return next(int(line.split()[1]) // 1024 for line in status if line.startswith("VmHWM"))


def class_of(desk, at):
    """The ID of the class of an object."""
    return next((row[2] for row in desk.rows(f"slots {at}") if row[0] == "class"), "0x0")


def node_behind_head(desk, node, count):
    """The object so many references behind the head of the list of a class's objects that a static field holds."""
    for held in desk.rows("members c STRONG"):
        for row in desk.rows(f"slots {held[0]}"):
            if row[0][0] == "s" and row[0][1:].isdigit() and row[3] == "stands" and class_of(desk, row[2]) == node:
                at = row[2]
                for _ in range(count):
                    at = next(to for _, _, to, mode in desk.rows(f"slots {at}") if mode == "stands" and class_of(desk, to) == node)
                return at
    raise Wrong("there is no list")


def measure_all(desk):
    desk.ask("mark")
    before = peak(desk)
    groups = {named: group for group, _, _, named in desk.rows("classes STRONG")}
    session = desk.rows(f"members {groups['Session']} STRONG")[0][0]
    far = node_behind_head(desk, groups["Node"], 1000)
    measure(desk, "strength", f"strength {session}")
    measure(desk, "slots", f"slots {session}")
    measure(desk, "short chain", f"chain {session}")
    measure(desk, "long chain", f"chain {far}")
    source, slot = measure(desk, "into", f"into {session}")[0][:2]
    for strength in ["STRONG", "SOFT", "WEAK", "FINAL", "PHANTOM", "UNREACHABLE"]:
        measure(desk, f"classes {strength}", f"classes {strength}")
    measure(desk, "members of one", f"members {groups['Session']} STRONG")
    measure(desk, "first members of millions", f"head 20 members {groups['Node']} STRONG")
    measure(desk, "members of millions", f"members {groups['Node']} STRONG")
    measure(desk, "roots", "roots")
    began = time.monotonic()
    desk.rows(f"cut {source} {slot}")
    print(f"cut: {time.monotonic() - began:.2f} s")
    measure(desk, "fell of four objects", "fell 0")
    began = time.monotonic()
    for _ in range(13):
        desk.rows("mark")
    print(f"13 marks: {(time.monotonic() - began) * 1000:.2f} ms")
    print(f"most memory: {before} MB after the opening, {peak(desk)} MB at the end")


def main():
    words = argparse.ArgumentParser(description=__doc__.splitlines()[0])
    add_program(words)
    words.add_argument("file", metavar="FILE")
    given = words.parse_args()
    try:
        with Program(given.program, LONGEST_WAIT) as program:
            desk = program.run(given.file)
            measure_all(desk)
            desk.quit()
    except Wrong as wrong:
        sys.exit(f"queries: {wrong}")


main()
