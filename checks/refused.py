"""Runs a program with one allocation refused, for each in turn: by the library of `refuse.rs`."""
from __future__ import annotations

import collections
import os
import shutil
import subprocess
import tempfile
from pathlib import Path
from typing import Callable, Iterator, Sequence

from report import Report
from session import Ended, Program, Wrong

MOST_ALLOCATIONS = 4000
MOST_SWEEPS = 5
SOURCE = Path(__file__).resolve().with_name("refuse.rs")
BUILD = ["rustc", "--edition", "2021", "-O", "--crate-type", "cdylib", "-C", "panic=abort"]


def need(tool: str) -> None:
    if not shutil.which(tool):
        raise Wrong(f"there is no {tool}, which this needs")


def build_library(room: str) -> str:
    """Builds the library in a folder."""
    need("rustc")
    library = str(Path(room) / "refuse.so")
    done = subprocess.run([*BUILD, str(SOURCE), "-o", library], stderr=subprocess.PIPE, check=False)
    if done.returncode != 0:
        raise Wrong(f"rustc does not build {SOURCE.name}: {done.stderr.decode().strip()}")
    return library


def without(program: Program, library: str, number: int, words: Sequence[str], text: str) -> tuple[Ended, bool]:
    """Runs a command without its allocation of that number. How it ended, and whether anything was refused."""
    reading, writing = os.pipe()
    os.set_blocking(reading, False)
    variables = dict(os.environ, LC_ALL="C", LD_PRELOAD=library, REFUSE=str(number), MARK=str(writing))
    try:
        ended = program.finish(words, text, env=variables, pass_fds=[writing])
        return ended, bool(os.read(reading, 1))
    except BlockingIOError:  # nothing is in the pipe
        return ended, False
    finally:
        os.close(reading)
        os.close(writing)


def sweep(program: Program, library: str, words: Sequence[str], text: str) -> Iterator[tuple[int, Ended]]:
    """The runs of a command without its first allocation, its second, and so on; last a run to which nothing was refused.

    The numbers are tried in blocks, side by side. What threads take differs from run to run, so behind the number of that
    last run there may be runs to which something was refused. They are among the others.
    """
    block = 8 * (os.cpu_count() or 1)
    for first in range(1, MOST_ALLOCATIONS, block):
        numbers = range(first, first + block)
        runs = program.side_by_side(lambda number: without(program, library, number, words, text), numbers)
        whole = [(number, ended) for number, (ended, is_refused) in zip(numbers, runs) if not is_refused]
        yield from ((number, ended) for number, (ended, is_refused) in zip(numbers, runs) if is_refused)
        if whole:
            yield whole[0]
            return
    raise Wrong(f"a run without allocation {MOST_ALLOCATIONS} still wants more")


def sweeps(
    program: Program, library: str, words: Sequence[str], text: str, is_enough: Callable[[], bool]
) -> Iterator[tuple[int, Ended]]:
    """The runs of sweeps until they are enough, of five at most.

    A call may have one allocation alone, and that has another number in each run where threads came before it: a sweep can
    miss it.
    """
    for _ in range(MOST_SWEEPS):
        yield from sweep(program, library, words, text)
        if is_enough():
            return


# Programs that print a line for each call.

ALL_RIGHT = "all right"

# Follows the lines of a run, each of which has to be right or say that memory ran out. What was refused, or `ALL_RIGHT`. Raises
# ValueError where a line is wrong.
Follow = Callable[[Iterator[str]], str]


def outcome_of(ended: Ended, follow: Follow) -> str:
    """What was refused in a run. Raises ValueError where it did anything else."""
    if ended.status != 0 or ended.faults:
        raise ValueError(f"status {ended.status}: {ended.faults.strip()}")
    if not ended.output.endswith("\n"):
        raise ValueError("the last line has no end")
    lines = iter(ended.output.splitlines())
    outcome = follow(lines)
    if next(lines, None) is not None:
        raise ValueError("a line too many")
    return outcome


def check_calls(path: str, report: Report, follow: Follow, met: Sequence[str]) -> None:
    """Runs a program without each of its allocations. All runs have to be right, and each of these has to be refused in one."""
    outcomes: collections.Counter[str] = collections.Counter()

    def missing() -> list[str]:
        return [wanted for wanted in met if not any(wanted in outcome for outcome in outcomes)]

    with Program(path) as program, tempfile.TemporaryDirectory() as room:
        last = "nothing"
        for number, ended in sweeps(program, build_library(room), [path], "", lambda: not missing()):
            try:
                last = outcome_of(ended, follow)
                outcomes[last] += 1
            except ValueError as error:
                last = "anything else"
                report.note(False, f"without allocation {number}: {error}, in {ended.output!r}")
    for outcome, count in sorted(outcomes.items()):
        report.note(True, f"{count:4} {outcome}")
    report.note(last == ALL_RIGHT, "a run to which nothing is refused is all right")
    for wanted in missing():
        report.note(False, f"no run met {wanted}")
