#!/usr/bin/env python3
"""Measures cuts and their undos, by how many objects fall.

    bench/regions.py [--program PATH] FILE [PAIRS [SEED]]

FILE is any dump. It takes objects of classes at random, asks `hdesk run` for their chains, cuts the last link of each
chain (for every tenth a random link, until 20 seconds have gone), and undoes that. It prints the seconds of the
opening; for each size of what fell the median of the milliseconds of a cut, of its undo, and of both, and the 95th
percentile and the greatest of both; and the memory of the program: after the opening, after all pairs, and with 15
further marks, each of another log. PAIRS is how many cuts and undos there are, 500 where nothing is said, 2,000 at
most. The program is the script `hdesk` where nothing is said. Needed are Linux and Python 3.8 or later.
"""
import argparse
import random
import statistics
import sys
import time
from pathlib import Path

sys.dont_write_bytecode = True  # the checkout stays as it is
sys.path.insert(0, str(Path(__file__).resolve().parent.parent / "checks"))

from session import Program, add_program

LONGEST_WAIT = 3600.0
SIZES = [(0, 0), (1, 1), (2, 100), (101, 10_000), (10_001, 1_000_000), (1_000_001, 1 << 40)]


def timed(desk, line):
    """The lines of a reply, or None for a refusal; and the seconds that it took."""
    (head, *lines), took = desk.timed(line)
    return lines if head.startswith("ok") else None, took


def memory(desk, name):
    """A line of the program's memory, in MB."""
    with open(f"/proc/{desk.process.pid}/status") as status:
        kilobytes = next(int(line.split()[1]) for line in status if line.startswith(name))
    return kilobytes // 1024


def sample(desk, rng):
    """Strong objects of 40 classes, at most 40 of each, in random order."""
    ids = []
    groups = timed(desk, "classes STRONG")[0]
    for line in rng.sample(groups, min(40, len(groups))):
        group, count = line.split()[:2]
        if int(count) <= 500_000:
            members = timed(desk, f"members {group} STRONG")[0]
            ids += rng.sample(members, min(40, len(members)))
    rng.shuffle(ids)
    return ids


def link_of(desk, rng, object_id, far):
    """The source and slot of the last link of an object's chain, or of a random one, if it has one."""
    chain = [line.split() for line in timed(desk, f"chain {object_id}")[0] or []]
    if len(chain) < 2:
        return None
    k = rng.randrange(1, len(chain)) if far else len(chain) - 1
    return chain[k - 1][-1], chain[k][0]


def fell(lines):
    """How many objects fell or came back, by the line of an event."""
    words = lines[0].split()
    return int(words[3]) + int(words[5])


def cut_and_undo(desk, link, mark):
    """What fell by a cut, and the seconds of the cut and of its undo; None where it is refused."""
    lines, cut = timed(desk, f"cut {link[0]} {link[1]}")
    if lines is None:
        return None
    if mark:
        desk.ask("mark")
    count = fell(lines)
    lines, undo = timed(desk, "undo")
    if fell(lines) != count:
        sys.exit(f"not all came back of {link}")
    return count, cut, undo


def print_sizes(measured):
    print("| Objects that fell | Pairs | Cut, ms | Undo, ms | Both, ms | 95 of 100 below | At most |")
    print("|---|---|---|---|---|---|---|")
    for low, high in SIZES:
        rows = [(c * 1000, u * 1000) for n, c, u in measured if low <= n <= high]
        if not rows:
            continue
        both = sorted(c + u for c, u in rows)
        name = f"{low:,}" if low == high else f"{low:,} to {high:,}" if high < 1 << 40 else f"more than {low - 1:,}"
        cut, undo = (statistics.median(r[i] for r in rows) for i in (0, 1))
        most = both[min(len(both) - 1, len(both) * 95 // 100)]
        print(f"| {name} | {len(rows)} | {cut:.2f} | {undo:.2f} | {statistics.median(both):.2f} | {most:.2f} | {both[-1]:.2f} |")


def measure(desk, began, pairs, rng):
    desk.ask("roots")
    peak, held = memory(desk, "VmHWM"), memory(desk, "VmRSS")
    print(f"opened in {time.perf_counter() - began:.2f} s, peak {peak} MB, holds {held} MB")
    ids = sample(desk, rng)
    before = memory(desk, "VmRSS")
    measured = []
    for n in range(pairs):
        far = n % 10 == 0 and sum(cut + undo for _, cut, undo in measured) < 20
        link = link_of(desk, rng, ids[n % len(ids)], far)
        done = link and cut_and_undo(desk, link, n % (pairs // 15 + 1) == 0)
        if done:
            measured.append(done)
    print_sizes(measured)
    few = [(c + u) * 1000 for n, c, u in measured if n <= 100]
    print(f"median of both where at most 100 fell: {statistics.median(few):.2f} ms")
    held, peak = memory(desk, "VmRSS"), memory(desk, "VmHWM")
    print(f"holds {before} MB before the edits, {held} MB after {2 * len(measured)} events, with marks; peak {peak} MB")


def main():
    words = argparse.ArgumentParser(description=__doc__.splitlines()[0])
    add_program(words)
    words.add_argument("file", metavar="FILE")
    words.add_argument("pairs", metavar="PAIRS", type=int, nargs="?", default=500)
    words.add_argument("seed", metavar="SEED", type=int, nargs="?", default=1)
    given = words.parse_args()
    with Program(given.program, LONGEST_WAIT) as program:
        began = time.perf_counter()
        desk = program.run(given.file)
        measure(desk, began, min(2000, given.pairs), random.Random(given.seed))
        desk.quit()


main()
