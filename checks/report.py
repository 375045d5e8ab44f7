"""What the scripts of this folder share: their words, their bound of time, their lines and their exit status."""
from __future__ import annotations

import argparse
import contextlib
import signal
import sys
import traceback
from pathlib import Path
from typing import Callable, Iterator

import session


class Stopped(Exception):
    """A script has to end: its time is over, or a signal came."""


class Failed(Exception):
    """A check failed, and its line is printed."""


class Report:
    """Prints a line for each check, and counts them."""

    def __init__(self) -> None:
        self.right = self.wrong = 0

    def note(self, holds: bool, text: str) -> None:
        if holds:
            self.right += 1
        else:
            self.wrong += 1
        print(f"{'right' if holds else 'wrong'}: {text}", flush=True)

    def check(self, holds: bool, text: str) -> None:
        """As `note`, for what later checks rely on: the script ends where it doesn't hold."""
        self.note(holds, text)
        if not holds:
            raise Failed


def words_of(doc: str, seconds: int, program: Path = session.SCRIPT) -> argparse.ArgumentParser:
    """The words that each script takes."""
    words = argparse.ArgumentParser(description=doc.splitlines()[0])
    session.add_program(words, program)
    words.add_argument(
        "--seconds", metavar="N", type=positive, default=seconds, help=f"how long the script may take; {seconds} if not given"
    )
    return words


def positive(text: str) -> int:
    number = int(text)
    if number <= 0:
        raise argparse.ArgumentTypeError(f"{text} is not above 0")
    return number


def readable(text: str) -> str:
    """A word that names a file."""
    if not Path(text).is_file():
        raise argparse.ArgumentTypeError(f"there is no file {text}")
    return text


@contextlib.contextmanager
def stopped_after(seconds: int) -> Iterator[None]:
    """Raises `Stopped` within, after some seconds or at a signal, so that what was started is killed on the way out."""

    def stop(number: int, _: object) -> None:
        for each in (signal.SIGALRM, signal.SIGTERM, signal.SIGINT):
            signal.signal(each, signal.SIG_IGN)
        raise Stopped(f"it did not end within {seconds} seconds" if number == signal.SIGALRM else f"signal {number} came")

    for each in (signal.SIGALRM, signal.SIGTERM, signal.SIGINT):
        signal.signal(each, stop)
    signal.alarm(seconds)
    yield
    signal.alarm(0)


def perform(words: argparse.ArgumentParser, body: Callable[[argparse.Namespace, Report], None]) -> None:
    """Runs a script's body, prints how many checks were right, and exits with 0 where all were, else with 1."""
    given, report = words.parse_args(), Report()
    try:
        with stopped_after(given.seconds):
            body(given, report)
    except Failed:
        pass
    except (session.Wrong, Stopped, OSError) as error:
        report.note(False, str(error))
    except Exception as error:  # where a reply has another form than the script reads
        traceback.print_exc()
        report.note(False, f"{type(error).__name__}: {error}")
    print(f"{Path(sys.argv[0]).stem}: {report.right} right, {report.wrong} wrong", flush=True)
    sys.exit(0 if report.right and not report.wrong else 1)
