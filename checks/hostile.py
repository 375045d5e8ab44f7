#!/usr/bin/env python3
"""Counts dumps that nobody's virtual machine writes, at several sizes, within bounds of time and memory.

Each kind of dump is made at each size and counted by `stat`. The objects and roots have to be those that were written. A run
may take 10 seconds, and 24 bytes of memory for each byte of the dump, or of a million where it is smaller. The time of a
kind may not grow from each size to the next by more than half again as much as the bytes, where the last takes above half a
second: a pass that isn't linear shows there. A line has the dump's bytes, the least seconds of three runs, the most memory (no
less than this script's own), nanoseconds and bytes of memory for each byte of the dump, and by what the time has grown since
the size before.

Then the slots of an object whose class has thousands of super classes are asked for, and the references to what they hold. With
names this may take ten times as long as without.
"""
from __future__ import annotations

import argparse
import itertools
import random
import sys
import tempfile
from concurrent.futures import ProcessPoolExecutor
from pathlib import Path
from typing import Callable, Iterable, Iterator, NamedTuple

sys.dont_write_bytecode = True  # the checkout stays as it is

from dumps import INT, OBJECT, Format
from report import Report, perform, positive, words_of
from session import Measured, Program, Wrong, native

SPELLED = Format(id_size=8)
WORD = 1 << 64
ABSENT = 0x10  # the class of arrays, which no dump has
SEED = 20240229
RUNS = 3
LONGEST = 10.0  # seconds of a run
MOST_MEMORY = 24  # bytes for each byte of a dump
MOST_GROWTH = 1.5  # of the time, beside that of the bytes
NOTICED = 0.5  # seconds
MOST_FOR_NAMES = 10.0  # of the time without names
NAMED = {"slots": "byte[]", "into": "?"}  # the further name of each line: that of the array, and that of the instance


class Made(NamedTuple):
    """A dump, and how many objects and roots it has."""

    data: bytes
    objects: int
    roots: int = 0


def in_segment(subs: Iterable[bytes], objects: int, roots: int = 0) -> Made:
    """The sub-records in one segment."""
    return Made(SPELLED.dump(SPELLED.segment(*subs), SPELLED.end()), objects, roots)


def empty_arrays(ids: Iterable[int]) -> Made:
    known = list(ids)
    return in_segment([SPELLED.array_head(name, 0, ABSENT) for name in known], len(set(known)))


def multiples_below(bound: int, start: int, step: int) -> Iterator[int]:
    """Of the numbers `start`, `start + step`, `start + 2 * step` and so on, modulo 2^64, those below the bound.

    From one of them to the next it takes as many steps as lead least far up, or least far down, or both together.
    """
    up = next(number for number in (count * step % WORD for count in range(1, WORD)) if number < bound)
    down = next(number for number in (-count * step % WORD for count in range(1, WORD)) if number < bound)
    number = next(number for number in ((start + count * step) % WORD for count in range(WORD)) if number < bound)
    while True:
        yield number
        if number + up < bound:
            number += up
        elif number >= down:
            number -= down
        else:
            number += up - down


def colliding_ids(size: int) -> Made:
    """Empty arrays whose IDs all met in one cell of the hash table while its hash had no secret."""
    inverse = pow(0x9E3779B97F4A7C15, -1, WORD)
    blocks = multiples_below(1 << 57, (5 << 36) * inverse, inverse)
    return empty_arrays(block << 7 for block in itertools.islice(blocks, -(-size // 25)))


def ids_far_apart(size: int) -> Made:
    """Empty arrays at random addresses, so that each has a page of its own."""
    draw = random.Random(SEED)
    return empty_arrays(draw.getrandbits(63) + 1 for _ in range(size // 25))


def ids_of_few_pages(size: int) -> Made:
    """Empty arrays at all addresses of pages that lie far apart, so that rows are full."""
    return empty_arrays((i // 512 << 40) + (i % 512) * 8 + 8 for i in range(size // 25))


def ids_in_turns(size: int) -> Made:
    """Empty arrays at all addresses of some pages, one of each page after the other, so that no two of a page are near."""
    pages = max(size // 25 // 512, 300)
    return empty_arrays((1 << 32) + (i % pages << 12) + i // pages % 512 * 8 for i in range(size // 25))


def ids_going_down(size: int) -> Made:
    """Empty arrays 64 addresses apart, the highest first, so that no number of a block of places follows the one before it."""
    count = size // 25
    return empty_arrays((1 << 32) + (count - i) * 64 for i in range(count))


def chain_of_classes(size: int) -> Made:
    """Classes, each the super class of the next."""
    count = size // 75
    return in_segment([SPELLED.class_dump(i + 1, i) for i in range(count)], count)


def chain_with_fields(size: int) -> Made:
    """The same, and each has a field."""
    count = size // 84
    return in_segment([SPELLED.class_dump(i + 1, i, [(0x77, INT)]) for i in range(count)], count)


def chain_with_instances(size: int) -> Made:
    """Classes, each the super class of the next; the first has a field, and each has an instance."""
    count = size // 104
    subs = []
    for i in range(count):
        subs.append(SPELLED.class_dump(i + 1, i, [(0x77, INT)] if i == 0 else ()))
        subs.append(SPELLED.instance((1 << 40) + i * 16, i + 1, b"\0\0\0\1"))
    return in_segment(subs, 2 * count)


def fields_of_a_chain(size: int) -> tuple[bytes, int]:
    """Classes, each the super class of the next and with a field of its own, and an instance of the last, each field of which
    holds the array 0x8; and how many classes there are."""
    count = size // 100
    classes = [SPELLED.class_dump(16 + i, 15 + i if i else 0, [(1, OBJECT)]) for i in range(count)]
    instance = SPELLED.instance(1 << 40, 15 + count, SPELLED.ids(*[8] * count))
    return SPELLED.dump(SPELLED.text(1, "held"), SPELLED.segment(SPELLED.byte_array(8), *classes, instance), SPELLED.end()), count


def many_fields(size: int) -> Made:
    """A class of as many fields as fit, and instances of its ID that have no values: an ID's second object isn't judged."""
    fields = [(name, INT) for name in range(65535)]
    count = max(size - 65535 * 9, 0) // 25
    return in_segment([SPELLED.class_dump(1, 0, fields)] + [SPELLED.instance(1, 1)] * count, 1)


def names(size: int) -> Made:
    """Texts and loaded classes of these names, and nothing else."""
    records = []
    for i in range(size // 55):
        records.append(SPELLED.text(i + 1, "Name"))
        records.append(SPELLED.load_class(i, (1 << 40) + i * 8, i + 1))
    return Made(SPELLED.dump(*records), 0)


def one_array(size: int) -> Made:
    """One array, each element of which is the array itself."""
    return in_segment([SPELLED.array(8, (8,) * (size // 8), ABSENT)], 1)


def empty_segments(size: int) -> Made:
    """Segments without a sub-record."""
    return Made(SPELLED.dump(SPELLED.segment() * (size // 9)), 0)


def roots(size: int) -> Made:
    """One array and nothing but roots on it."""
    return in_segment([SPELLED.array(8, (), ABSENT), SPELLED.root(8) * (size // 9)], 1, size // 9)


def one_list(size: int) -> Made:
    """Arrays, each of which refers to the next, and a root on the first."""
    count = size // 33
    return in_segment([SPELLED.root(8)] + [SPELLED.array(8 + i * 16, (24 + i * 16,), ABSENT) for i in range(count)], count, 1)


def to_and_fro(size: int) -> Made:
    """The same arrays in another order: the first, the last, the second, the last but one, and so on, so that each lies in
    another part of the objects than the next."""
    count = size // 33
    ids = [8 + i * 16 for i in range(count)]
    row = [ids[place // 2] if place % 2 == 0 else ids[-1 - place // 2] for place in range(count)]
    following = dict(zip(row, row[1:]))
    return in_segment([SPELLED.root(8)] + [SPELLED.array(name, (following.get(name, 0),), ABSENT) for name in ids], count, 1)


def one_cell(size: int) -> Made:
    """An array that refers in turns to two objects of another part of the objects, whose numbers leave the same remainder by
    32,768, so that the search doesn't remember that it handed them over."""
    count = 140_000
    empty = [SPELLED.byte_array(16 + i * 8) for i in range(count)]
    pair = (16 + 100_000 * 8, 16 + 132_768 * 8)
    return in_segment([SPELLED.root(8), SPELLED.array(8, pair * ((size - 18 * count) // 16), ABSENT), *empty], 1 + count, 1)


DUMPS: list[Callable[[int], Made]] = [
    colliding_ids, ids_far_apart, ids_of_few_pages, ids_in_turns, ids_going_down, chain_of_classes, chain_with_fields,
    chain_with_instances, many_fields, names, one_array, empty_segments, roots, one_list, to_and_fro, one_cell,
]


class Dump(NamedTuple):
    """A dump in a file."""

    path: str
    bytes: int
    objects: int
    roots: int


def write(make: Callable[[int], Made], size: int, room: str) -> Dump:
    made, path = make(size), Path(room) / f"{make.__name__}-{size}"
    path.write_bytes(made.data)
    return Dump(str(path), len(made.data), made.objects, made.roots)


def measured(program: Program, dump: Dump) -> tuple[Measured, str]:
    """The least seconds and the most memory of some runs over a dump, and what is wrong, if anything is."""
    runs = []
    for _ in range(RUNS):
        run = program.measure([program.path, "stat", dump.path])
        runs.append(run)
        lines = run.said.splitlines()
        if run.status != 0 or lines[:2] != [f"objects {dump.objects}", f"roots {dump.roots}"]:
            return run, f"; status {run.status}, {dump.objects} objects and {dump.roots} roots are counted as {lines[:2]}"
    all_of_them = runs[0]._replace(seconds=min(run.seconds for run in runs), kilobytes=max(run.kilobytes for run in runs))
    is_large = all_of_them.kilobytes * 1024 > MOST_MEMORY * max(dump.bytes, 1_000_000)
    return all_of_them, f"; above {MOST_MEMORY} bytes of memory a byte" if is_large else ""


def check_kind(program: Program, report: Report, name: str, dumps: list[Dump]) -> None:
    """Measures the dumps of a kind, the smallest first."""
    times: list[float] = []
    for dump in dumps:
        try:
            run, wrong = measured(program, dump)
        except Wrong as error:
            report.note(False, f"{name}: {dump.bytes} bytes: {error}")
            return
        grown = f", {run.seconds / times[-1]:.1f} times" if times else ""
        times.append(run.seconds)
        each = f"{run.seconds * 1e9 / dump.bytes:.0f} ns and {run.kilobytes * 1024 / dump.bytes:.0f} bytes a byte"
        report.note(not wrong, f"{name}: {dump.bytes} bytes, {run.seconds:.3f} s, {run.kilobytes} KB, {each}{grown}{wrong}")
    if len(times) > 1:
        lengths = [dump.bytes for dump in dumps]
        steps = [times[i + 1] / times[i] / (lengths[i + 1] / lengths[i]) for i in range(len(times) - 1)]
        is_steep = min(steps) > MOST_GROWTH and times[-1] > NOTICED
        shown = ", ".join(f"{step:.1f}" for step in steps)
        report.note(not is_steep, f"{name}: the time grows {shown} times as much as the bytes")


def check_names(program: Program, report: Report, size: int, room: str) -> None:
    """Asks for the fields of a long chain, without names and with them."""
    data, count = fields_of_a_chain(size)
    path = Path(room) / f"fields_of_a_chain-{size}"
    path.write_bytes(data)
    session = program.run(str(path))
    session.ask("strength 0x8")  # the dump is open
    queries = [f"slots {1 << 40:#x}", "into 0x8"]
    plain = [session.timed(query) for query in queries]
    session.ask("names on")
    named = [session.timed(query) for query in queries]
    session.quit()
    for query, (lines, seconds), (more, longer) in zip(queries, plain, named):
        is_whole = len(lines) == len(more) > count and more[count] == f"{lines[count]} {NAMED[query.split()[0]]} ?.held"
        is_quick = longer <= MOST_FOR_NAMES * max(seconds, 0.01)
        report.note(is_whole and is_quick, f"{query.split()[0]} of {count} classes: {seconds:.3f} s, with names {longer:.3f} s")


def check_kinds(given: argparse.Namespace, report: Report) -> None:
    """Makes the dumps of a kind in other processes, side by side: a run is charged with the memory of what starts it."""
    path = native(given.program, given.seconds)
    with ProcessPoolExecutor() as pool, Program(path, LONGEST) as program:
        for make in DUMPS:
            with tempfile.TemporaryDirectory() as room:
                sizes = sorted(given.sizes)
                dumps = list(pool.map(write, [make] * len(sizes), sizes, [room] * len(sizes)))
                check_kind(program, report, make.__name__, dumps)
        for size in sorted(given.sizes):
            with tempfile.TemporaryDirectory() as room:
                check_names(program, report, size, room)


if __name__ == "__main__":
    taken = words_of(__doc__, seconds=240)
    taken.add_argument(
        "--sizes", metavar="BYTES", type=positive, nargs="+", default=[5_000_000, 10_000_000, 20_000_000],
        help="the sizes; 5, 10 and 20 million bytes if not given",
    )
    perform(taken, check_kinds)
