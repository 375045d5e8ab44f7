#!/usr/bin/env python3
"""Measures how long dumps take to open, and how much memory that takes, beside programs that do less or that aren't proved.

    bench/opening.py [--program PATH] [--runs N] --out TABLE DUMP..

Of each dump and program it writes a row of a comma-separated table:

- `read` reads the file into memory; `walk` also goes over its records and sub-records once, on one thread;
- `plain` is the plain Rust program that prints what `hdesk stat` prints, and `holding` the same, holding the file in memory;
- `stat` is `hdesk stat`, to its end; `run` is `hdesk run`, to its first reply.

`threads` is what the program is told: threads of the plain ones, workers of hdesk. `seconds` and `processor` are the least seconds
of all runs, by the clock and of all processors; those of the processors go to the end of `run`. `peak` is the most memory in bytes
that a run had, and `held` the memory of `run` at its first reply. The programs run by turns. The dump is in the page cache. As with
`./hdesk`, programs get large pages if it has 64 MiB or more, and give back what large lists took. A peak that isn't above this
script's own can't be told, and is left out. Needed are Linux and `rustc`.
"""
from __future__ import annotations

import argparse
import csv
import os
import resource
import shutil
import subprocess
import sys
import tempfile
import time
from pathlib import Path
from typing import NamedTuple

sys.dont_write_bytecode = True
BENCH = Path(__file__).resolve().parent
sys.path.insert(0, str(BENCH.parent / "checks"))

from session import add_program, native  # noqa: E402

COLUMNS = ["dump", "bytes", "objects", "program", "threads", "runs", "seconds", "processor", "peak", "held"]
LARGE = 64 << 20
TUNABLES = "glibc.malloc.hugetlb=1:glibc.malloc.mmap_threshold=1048576"  # those of the script `hdesk` for large dumps


class Subject(NamedTuple):
    """A program with its number of threads, and the words that start it over a dump."""

    name: str
    threads: int
    before: tuple[str, ...]
    after: tuple[str, ...] = ()

    def words(self, dump: str) -> list[str]:
        return [*self.before, dump, *self.after]


class Took(NamedTuple):
    """What a run took: seconds by the clock and of the processors, and bytes. It printed `output`."""

    seconds: float
    processor: float
    peak: int
    held: int
    output: str


def build(source: Path, program: Path) -> str:
    subprocess.run(["rustc", "--edition", "2021", "-O", str(source), "-o", str(program)], check=True)
    return str(program)


def subjects_of(hdesk: str, room: Path) -> list[Subject]:
    """All programs, with those that aren't hdesk built in a folder."""
    held = room / "held"
    shutil.copytree(BENCH / "plain", held)
    shutil.copy(BENCH / "holding/window.rs", held)
    read, walk = build(BENCH / "read.rs", room / "read"), build(BENCH / "walk.rs", room / "walk")
    plain, holding = build(BENCH / "plain/main.rs", room / "plain"), build(held / "main.rs", room / "holding")
    return [
        Subject("read", 1, (read,)),
        Subject("walk", 1, (walk,)),
        *(Subject("plain", n, (plain,), (str(n),)) for n in (1, 2, 4)),
        Subject("holding", 4, (holding,), ("4",)),
        *(Subject("stat", n, (hdesk, "stat"), ("--workers", str(n))) for n in (1, 2, 4, 8, 16)),
        Subject("run", 4, (hdesk, "run"), ("--workers", "4")),
    ]


def run(subject: Subject, dump: str, env: dict[str, str]) -> Took:
    """Runs a program to its end, or `hdesk run` to its first reply, behind which it is told to end."""
    words = subject.words(dump)
    began = time.perf_counter()
    process = subprocess.Popen(words, env=env, stdin=subprocess.PIPE, stdout=subprocess.PIPE, stderr=subprocess.DEVNULL)
    held = 0
    if subject.name == "run":
        process.stdin.write(b"events\n")
        process.stdin.flush()
        process.stdout.readline()
        seconds = time.perf_counter() - began
        status = Path(f"/proc/{process.pid}/status").read_text().splitlines()
        held = next(int(line.split()[1]) << 10 for line in status if line.startswith("VmRSS:"))
    process.stdin.close()
    output = process.stdout.read().decode()
    _, ended, used = os.wait4(process.pid, 0)
    if subject.name != "run":
        seconds = time.perf_counter() - began
    process.returncode = ended
    if ended != 0:
        sys.exit(f"opening: {' '.join(words)} ends with status {ended:#x}")
    return Took(seconds, used.ru_utime + used.ru_stime, used.ru_maxrss << 10, held, output)


def measure(subjects: list[Subject], dump: str, runs: int) -> dict[Subject, list[Took]]:
    """What each program took, by turns, each turn beginning one program further."""
    size = os.stat(dump).st_size
    env = {**os.environ, "GLIBC_TUNABLES": TUNABLES} if size >= LARGE else dict(os.environ)
    took: dict[Subject, list[Took]] = {subject: [] for subject in subjects}
    for turn in range(runs):
        at = turn % len(subjects)
        for subject in subjects[at:] + subjects[:at]:
            took[subject].append(run(subject, dump, env))
    return took


def rows_of(dump: str, took: dict[Subject, list[Took]]) -> list[list[object]]:
    """The rows of a dump."""
    outputs = {each.output for subject, all_runs in took.items() if subject.name in ("plain", "holding", "stat") for each in all_runs}
    if len(outputs) != 1:
        sys.exit(f"opening: {dump}: hdesk and the plain programs print different lines")
    objects = int(outputs.pop().split()[1])
    own_peak = resource.getrusage(resource.RUSAGE_SELF).ru_maxrss << 10
    rows: list[list[object]] = []
    for subject, all_runs in took.items():
        peak, held = max(each.peak for each in all_runs), max(each.held for each in all_runs)
        seconds, processor = (min(times) for times in zip(*((each.seconds, each.processor) for each in all_runs)))
        rows.append([
            Path(dump).stem, os.stat(dump).st_size, objects, subject.name, subject.threads, len(all_runs), f"{seconds:.4f}", f"{processor:.4f}",
            peak if peak > own_peak else "", held or "",
        ])
    return rows


def main() -> None:
    words = argparse.ArgumentParser(description=__doc__.splitlines()[0])
    add_program(words)
    words.add_argument("--runs", type=int, default=5, help="how often each program runs, at least; 5 if not given; dumps below 100 MB more often")
    words.add_argument("--out", required=True, help="the table that is written")
    words.add_argument("dumps", metavar="DUMP", nargs="+")
    given = words.parse_args()
    with tempfile.TemporaryDirectory() as room, open(given.out, "w", newline="") as out:
        table = csv.writer(out, lineterminator="\n")
        table.writerow(COLUMNS)
        subjects = subjects_of(native(given.program, 60), Path(room))
        for dump in given.dumps:
            subprocess.run(["cat", dump], stdout=subprocess.DEVNULL, check=True)  # into the page cache
            took = measure(subjects, dump, max(given.runs, min(40, 500_000_000 // os.stat(dump).st_size)))
            table.writerows(rows_of(dump, took))
            out.flush()


main()
