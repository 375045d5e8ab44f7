#!/usr/bin/env python3
"""Runs `hdesk` while memory is refused to it, and looks for a wrong answer.

The same lines are served in each run over the sample. Each line has to be answered rightly for the log as it is then; or
that it came to nothing (`no OutOfMemory`, `no Behind`); or, for an edit or an undo, that its event stands in the log though
the desk hasn't come to it (`no Accepted E`), and then the lines behind it have to be right for a log with that event. Or the
run ends with the fault OutOfMemory, and nothing is written. The sweeps are:

- smaller and smaller limits of the address space, in steps of one page, to the first limit under which the system's loader
  can't start the program: over the sample, whose opening takes no more than the program held before, and over a dump of
  10,000 objects;
- the N-th allocation alone refused, for N = 1, 2, .. up to the first run in which nothing was left to refuse (`refuse.rs`);
- the same over files: `stat` and two sessions over a dump with a weak reference and a finalizer, and `stat` with 1, 4 and 16
  workers over three dumps with a count of 4,294,967,295, which have to be refused for their fault or end out of memory.

A sweep fails where a run did anything else, or where no run met an outcome that it has to meet. Needed are Linux, rustc,
prlimit and the GNU C library.
"""
from __future__ import annotations

import argparse
import collections
import os
import signal
import sys
import tempfile
from pathlib import Path
from typing import Callable, Iterator, NamedTuple, Type

sys.dont_write_bytecode = True  # the checkout stays as it is

from dumps import BYTE, Format, ReferenceClasses
from refused import build_library, need, sweeps
from report import Report, perform, words_of
from session import Ended, Program, native

PAGE = 4  # KiB
SPELLED = Format()

ALL, IN_PART = "answered all", "refused at a command"
OPENING, ELSEWHERE = "refused at the opening", "refused elsewhere"
NO_STACK, NOT_LOADED, ELSE = "no stack", "not loaded", "anything else"


class Model:
    """A session as it has to go.

    It remembers the log, with the number of the event that it takes back for an undo, else a text; and whether the object
    that the edits make unreachable was reachable under each mark.
    """

    LINES: list[str]
    OBJECT: str

    def __init__(self) -> None:
        self.log: list[int | str] = []
        self.marks = [True]

    def live(self) -> list[int]:
        return [number for number, event in enumerate(self.log) if isinstance(event, str) and number not in self.log]

    def strength(self) -> str:
        """The strength of the object."""
        raise NotImplementedError

    def answers(self) -> dict[str, list[str]]:
        """For each query the lines of the right reply, without `ok N`; or the refusal."""
        raise NotImplementedError

    def is_up(self) -> bool:
        return self.strength() != "UNREACHABLE"

    def append(self, event: int | str) -> list[str]:
        """The right reply to an event, which is added."""
        before = self.is_up()
        self.log.append(event)
        after = self.is_up()
        return [f"event {len(self.log) - 1} fell {int(before and not after)} back {int(after and not before)}"]

    def query(self, line: str) -> list[str]:
        """The right reply to a line that adds no event."""
        if line == "mark":
            self.marks.append(self.is_up())
            return [f"mark {len(self.marks) - 1}"]
        if line.startswith("fell"):
            mark = int(line.split()[1])
            if mark >= len(self.marks):
                return ["no NoSuchMark"]
            return [self.OBJECT] if self.marks[mark] and not self.is_up() else []
        common = {
            f"strength {self.OBJECT}": [self.strength()],
            "roots": ["0 unknown 0x1 stands"],
            "undo": ["no NothingToUndo"],
            "quit": [],
        }
        return {**common, **self.answers()}[line]

    def is_event(self, line: str) -> bool:
        return line.split()[0] in ("cut", "clear") or (line == "undo" and self.live() != [])

    def reply(self, line: str) -> str:
        """The right reply to a line, after which what it changes is remembered."""
        if self.is_event(line):
            lines = self.append(self.live()[-1] if line == "undo" else line)
        else:
            lines = self.query(line)
        if not lines or not lines[0].startswith("no "):
            lines = [f"ok {len(lines)}", *lines]
        return "".join(f"{text}\n" for text in lines)

    def take(self, line: str, written: str) -> tuple[str, bool] | None:
        """Takes the reply to a line from what was written. What is left, and whether memory ran out; None where it is wrong."""
        if line != "quit":
            for nothing in ("no OutOfMemory\n", "no Behind\n"):
                if written.startswith(nothing):
                    return written[len(nothing):], True
        accepted = f"no Accepted {len(self.log)}\n" if self.is_event(line) else None
        right = self.reply(line)
        if written.startswith(right):
            return written[len(right):], False
        if accepted and written.startswith(accepted):
            return written[len(accepted):], True
        return None


class Sample(Model):
    """A session over the sample, where 0x1 holds 0x2."""

    LINES = [
        "strength 0x2", "cut 0x1 e0", "strength 0x2", "slots 0x1", "undo", "strength 0x2", "mark", "chain 0x2", "into 0x2",
        "classes STRONG", "members 0x0 STRONG", "fell 0", "fell 1", "private", "cut 0x1 e0", "strength 0x2", "events",
        "freed 0", "moved 0", "names on", "slots 0x1", "back", "chain 0x2", "into 0x2", "names off", "back", "strength 0x2",
        "top STRONG", "find ?", "object 0x2", "head 1 slots 0x1", "freed 1", "moved 1", "roots", "quit",
    ]
    OBJECT = "0x2"

    def __init__(self) -> None:
        super().__init__()
        self.home: list[int | str] | None = None  # the log before a private part
        self.names = False

    def strength(self) -> str:
        return "UNREACHABLE" if self.live() else "STRONG"

    def query(self, line: str) -> list[str]:
        if line == "private":
            self.home = list(self.log)
            return [f"private {len(self.log)}"]
        if line == "back" and self.home is not None:
            count, self.log, self.home = len(self.log) - len(self.home), self.home, None
            return [f"back {count}"]
        if line.startswith("names"):
            self.names = line == "names on"
            return []
        if line.startswith(("freed", "moved")):
            word, mark = line.split()
            return self.since(word, int(mark))
        return super().query(line)

    def since(self, word: str, mark: int) -> list[str]:
        """The lines of `freed` or `moved` for a mark."""
        if mark >= len(self.marks):
            return ["no NoSuchMark"]
        before, after = self.marks[mark], self.is_up()
        if word == "freed":
            return ["total 1 0", "0x0 1 0 ?"] if before and not after else ["total 0 0"]
        return [] if before == after else ["STRONG UNREACHABLE 1 0" if before else "UNREACHABLE STRONG 1 0"]

    def named(self, *lines: tuple[str, str]) -> list[str]:
        """Lines, each with its further columns where names are on."""
        return [f"{line} {columns}" if self.names else line for line, columns in lines]

    def event_lines(self) -> list[str]:
        live = self.live()
        texts = [
            f"undo {event}" if isinstance(event, int) else f"{event} {'live' if number in live else 'undone'}"
            for number, event in enumerate(self.log)
        ]
        return [f"{number} 0 {text}" for number, text in enumerate(texts)]

    def answers(self) -> dict[str, list[str]]:
        up, mode = self.is_up(), "stands" if self.is_up() else "cut"
        return {
            "slots 0x1": self.named((f"e0 strong 0x2 {mode}", "? -"), ("e1 strong 0x0 null", "- -"),
                                    ("e2 strong 0x9 absent", "- -"), ("class strong 0x0 null", "- -")),
            "head 1 slots 0x1": self.named((f"e0 strong 0x2 {mode}", "? -")),
            "chain 0x2": self.named(("root 0 unknown 0x1", "?"), ("e0 strong 0x2", "? -")) if up else [],
            "into 0x2": self.named((f"0x1 e0 strong {mode}", "? -")),
            "object 0x2": [f"0x0 0 {self.strength()} ?"],
            "classes STRONG": [f"0x0 {1 + up} 12 ?"],
            "top STRONG": [f"0x0 {1 + up} 12 ?"],
            "find ?": [f"0x0 {1 + up} 0 0 0 0 {1 - up} ?"],
            "members 0x0 STRONG": ["0x1"] + ["0x2"] * up,
            "events": self.event_lines(),
            "back": ["no NotPrivate"],
        }


def weak_and_final(further: int = 0) -> bytes:
    """A weak reference 0x21 and a finalizer 0x31 on one array 0x5, and a list 0x1 of both; and further arrays that no root holds."""
    classes = ReferenceClasses(SPELLED, 0x11, 0x101)
    finalizer = [SPELLED.text(0x107, "java/lang/ref/Finalizer"), SPELLED.load_class(6, 0x16, 0x107)]
    subs = [*classes.class_dumps(), SPELLED.class_dump(0x16, classes.of_kind["final"]), SPELLED.root(1)]
    subs += [SPELLED.array(1, [0x21, 0x31]), classes.instance(0x21, classes.of_kind["weak"], 5)]
    subs += [classes.instance(0x31, 0x16, 5), SPELLED.array(5)]
    subs += [SPELLED.array(0x100000 + 8 * number) for number in range(further)]
    return SPELLED.dump(*classes.records(), *finalizer, SPELLED.segment(*subs))


WEAK_AND_FINAL_STAT = (
    "objects 10\nroots 1\nedges 11\nunresolved 0\nrepeated 0 0 0\nopaque 0\nSTRONG 7 16\nSOFT 0 0\nWEAK 1 0\n"
    "FINAL 0 0\nPHANTOM 0 0\nUNREACHABLE 2 0\n"
)


class Clears(Model):
    """A session over that dump, in which the references are cleared."""

    LINES = [
        "chain 0x5", "slots 0x21", "clear 0x21", "strength 0x5", "into 0x5", "classes FINAL", "mark", "clear 0x31",
        "strength 0x5", "members 0x0 FINAL", "chain 0x5", "fell 0", "fell 1", "roots", "undo", "fell 0", "chain 0x5",
        "clear 0x1", "quit",
    ]
    OBJECT = "0x5"
    WAYS = [("WEAK", "e0", "0x21", "weak"), ("FINAL", "e1", "0x31", "final")]

    def is_event(self, line: str) -> bool:
        return line != "clear 0x1" and super().is_event(line)

    def stands(self, reference: str) -> bool:
        return f"clear {reference}" not in [self.log[number] for number in self.live()]

    def way(self) -> tuple[str, str, str, str] | None:
        """The strength of 0x5, and the element, the reference and the kind of its chain."""
        return next((way for way in self.WAYS if self.stands(way[2])), None)

    def strength(self) -> str:
        way = self.way()
        return way[0] if way else "UNREACHABLE"

    def answers(self) -> dict[str, list[str]]:
        way, is_final = self.way(), self.strength() == "FINAL"
        modes = {reference: "stands" if self.stands(reference) else "cut" for reference in ("0x21", "0x31")}
        return {
            "chain 0x5": ["root 0 unknown 0x1", f"{way[1]} strong {way[2]}", f"f0 {way[3]} 0x5"] if way else [],
            "slots 0x21": [f"f0 weak 0x5 {modes['0x21']}", "class strong 0x13 stands"],
            "into 0x5": [f"0x21 f0 weak {modes['0x21']}", f"0x31 f0 final {modes['0x31']}"],
            "classes FINAL": ["0x0 1 0 ?"] if is_final else [],
            "members 0x0 FINAL": ["0x5"] if is_final else [],
            "clear 0x1": ["no NotReference"],
        }


class Names(Clears):
    """A session over that dump that begins with names, in which references go one by one, by kind and by class."""

    LINES = [
        "slots 0x21", "chain 0x5", "into 0x5", "object 0x5", "find Weak", "top STRONG", "cutall 0x13 f0", "moved 0",
        "clear 0x21", "freed 0", "find Finalizer", "chain 0x5", "private", "clearall final", "moved 0", "freed 0", "fell 0", "object 0x5", "head 1 into 0x5",
        "chain 0x5", "back", "moved 0", "undo", "moved 0", "undo", "moved 0", "head 2 top STRONG", "members 0x16 STRONG", "quit",
    ]
    FIELD = "java/lang/ref/Reference.referent"
    CLASSES = {"0x21": "java/lang/ref/WeakReference", "0x31": "java/lang/ref/Finalizer"}

    def __init__(self) -> None:
        super().__init__()
        self.home: list[int | str] = []  # the log before the private part

    def is_event(self, line: str) -> bool:
        return line in ("clearall final", "cutall 0x13 f0") or super().is_event(line)

    def stands(self, reference: str) -> bool:
        live = [self.log[number] for number in self.live()]
        wide = "cutall 0x13 f0" if reference == "0x21" else "clearall final"
        return f"clear {reference}" not in live and wide not in live

    def query(self, line: str) -> list[str]:
        if line == "private":
            self.home = list(self.log)
            return [f"private {len(self.log)}"]
        if line == "back":
            count, self.log = len(self.log) - len(self.home), self.home
            return [f"back {count}"]
        if line == "fell 0":
            return [] if self.is_up() else ["0x5 ?"]
        return super().query(line)

    def answers(self) -> dict[str, list[str]]:
        way, after = self.way(), self.strength()
        into = [f"{reference} f0 {kind} {'stands' if self.stands(reference) else 'cut'} {self.CLASSES[reference]} {self.FIELD}"
                for _, _, reference, kind in self.WAYS]
        top = ["0x0 1 8 ?", "0x13 1 4 java/lang/ref/WeakReference", "0x16 1 4 java/lang/ref/Finalizer", "c 4 0 classes"]
        return {
            "slots 0x21": [f"f0 weak 0x5 {'stands' if self.stands('0x21') else 'cut'} ? {self.FIELD}",
                           "class strong 0x13 stands java/lang/ref/WeakReference.class -"],
            "chain 0x5": ["root 0 unknown 0x1 ?", f"{way[1]} strong {way[2]} {self.CLASSES[way[2]]} -",
                          f"f0 {way[3]} 0x5 ? {self.FIELD}"] if way else [],
            "into 0x5": into,
            "head 1 into 0x5": into[:1],
            "object 0x5": [f"0x0 0 {after} ?"],
            "find Weak": ["0x13 1 0 0 0 0 0 java/lang/ref/WeakReference"],
            "find Finalizer": ["0x16 1 0 0 0 0 0 java/lang/ref/Finalizer"],
            "top STRONG": top,
            "head 2 top STRONG": top[:2],
            "members 0x16 STRONG": ["0x31 java/lang/ref/Finalizer"],
            "moved 0": [] if after == "WEAK" else [f"WEAK {after} 1 0"],
            "freed 0": ["total 0 0"] if way else ["total 1 0", "0x0 1 0 ?"],
        }


# What a run did.

Judge = Callable[[Ended], str]


def judge_session(kind: Type[Model]) -> Judge:
    def judge(ended: Ended) -> str:
        model, written, ran_out = kind(), ended.output, False
        for line in kind.LINES:
            taken = model.take(line, written)
            if taken is None:
                return ELSE
            written, is_short = taken
            ran_out = ran_out or is_short
        if written or ended.faults or ended.status != 0:
            return ELSE
        return IN_PART if ran_out else ALL

    return judge


def judge_end(right: Ended) -> Judge:
    return lambda ended: ALL if ended == right else ELSE


def outcome_of(ended: Ended, judge: Judge) -> str:
    if ended == Ended(2, "", "hdesk: OutOfMemory at 0\n"):
        return OPENING
    if ended == Ended(1, "", "hdesk: OutOfMemory\n"):
        return ELSEWHERE
    return judge(ended)


def limited_outcome(ended: Ended, judge: Judge) -> str:
    """The same under a limit, where the system may have no room for the stack, or the loader none for the program."""
    if ended.output:
        return outcome_of(ended, judge)
    if ended.status in (-signal.SIGKILL, -signal.SIGSEGV):
        return NO_STACK
    return NOT_LOADED if ended.status in (126, 127) else outcome_of(ended, judge)


class Outcomes:
    """The outcomes of a sweep."""

    def __init__(self, report: Report, name: str, met: list[str]) -> None:
        self.report, self.name, self.met = report, name, met
        self.counts: collections.Counter[str] = collections.Counter()

    def add(self, outcome: str, which: str, ended: Ended) -> None:
        self.counts[outcome] += 1
        if outcome == ELSE:
            self.report.note(False, f"{self.name}, {which}: {ended}")

    def missing(self) -> list[str]:
        """The outcomes that no run met and one had to."""
        return [outcome for outcome in self.met if not self.counts[outcome]]

    def show(self, end: str) -> None:
        """Prints the counts. They are right where no run did anything else and no outcome is missing."""
        counts = ", ".join(f"{outcome} {count}" for outcome, count in sorted(self.counts.items()))
        missing = self.missing()
        text = f"{self.name}: {counts}; {end}" + (f"; never {', '.join(missing)}" if missing else "")
        self.report.note(not missing and not self.counts[ELSE], text)


# Sweeps.


def text_of(kind: Type[Model]) -> str:
    return "".join(line + "\n" for line in kind.LINES)


class Falling(NamedTuple):
    """A session that is run under falling limits of the address space."""

    name: str
    words: list[str]
    model: Type[Model]
    first_limit: int  # KiB
    met: list[str]


def falling(room: str) -> Iterator[Falling]:
    yield Falling("the sample", [], Sample, 4000, [ALL, ELSEWHERE, NOT_LOADED])
    many = Path(room) / "many.hprof"
    many.write_bytes(weak_and_final(10_000))
    yield Falling("10,000 objects", ["run", str(many)], Clears, 8000, [ALL, OPENING, NOT_LOADED])


def sweep_limits(program: Program, report: Report, session: Falling) -> None:
    """Tries smaller and smaller limits, side by side in blocks, down to a block in which nothing is loaded. Below the first limit
    under which the program isn't loaded it has not to be loaded either."""
    outcomes, judge = Outcomes(report, f"limits of the address space, {session.name}", session.met), judge_session(session.model)
    environment = dict(os.environ, LC_ALL="C")

    def run(limit: int) -> Ended:
        words = ["prlimit", f"--as={limit * 1024}", program.path, *session.words]
        return program.finish(words, text_of(session.model), env=environment)

    block, is_gone = 8 * (os.cpu_count() or 1) * PAGE, False
    for top in range(session.first_limit, 0, -block):
        limits = range(top, max(top - block, 0), -PAGE)
        in_block = set()
        for limit, ended in zip(limits, program.side_by_side(run, limits)):
            outcome = limited_outcome(ended, judge)
            is_late = is_gone and outcome != NOT_LOADED
            is_gone = is_gone or outcome == NOT_LOADED
            outcomes.add(ELSE if is_late else outcome, f"at {limit} KiB", ended)
            in_block.add(outcome)
        if in_block == {NOT_LOADED}:
            break
    outcomes.show(f"not loaded at {top} KiB")


class Case(NamedTuple):
    """A command that is run without each of its allocations."""

    name: str
    words: list[str]
    text: str
    judge: Judge
    met: list[str]


def sweep_allocations(program: Program, library: str, report: Report, case: Case) -> None:
    outcomes, last, outcome = Outcomes(report, case.name, case.met), 0, ELSE
    words = [program.path, *case.words]
    for last, ended in sweeps(program, library, words, case.text, lambda: not outcomes.missing()):
        outcome = outcome_of(ended, case.judge)
        outcomes.add(outcome, f"without allocation {last}", ended)
    if outcome != ALL:
        report.note(False, f"{case.name}: the run to which nothing is refused is not answered rightly")
    outcomes.show(f"nothing left to refuse at run {last}")


def cases(room: str) -> Iterator[Case]:
    yield Case("one allocation refused", [], text_of(Sample), judge_session(Sample), [OPENING, ELSEWHERE, IN_PART, ALL])
    references = Path(room) / "references.hprof"
    references.write_bytes(weak_and_final())
    right = judge_end(Ended(0, WEAK_AND_FINAL_STAT, ""))
    yield Case("stat of references", ["stat", str(references)], "", right, [OPENING, ALL])
    words = ["run", str(references)]
    yield Case("a session over references", words, text_of(Clears), judge_session(Clears), [OPENING, IN_PART, ALL])
    words = ["run", str(references), "--names"]
    yield Case("a session with names", words, text_of(Names), judge_session(Names), [OPENING, IN_PART, ALL])
    heads = {
        "array of too many elements": SPELLED.array_head(1, 0xFFFFFFFF),
        "instance of too many bytes": SPELLED.instance_head(1, 0, 0xFFFFFFFF),
        "array of too many numbers": SPELLED.primitive_head(1, 0xFFFFFFFF, BYTE),
    }
    for name, head in heads.items():
        file = Path(room) / f"{name}.hprof"
        file.write_bytes(SPELLED.dump(SPELLED.segment(head)))
        for workers in ("1", "4", "16"):
            right = judge_end(Ended(2, "", "hdesk: ShortSub at 40\n"))
            yield Case(f"{name}, {workers} workers", ["stat", str(file), "--workers", workers], "", right, [OPENING, ALL])


def refuse(given: argparse.Namespace, report: Report) -> None:
    need("prlimit")
    with Program(native(given.program, given.seconds)) as program, tempfile.TemporaryDirectory() as room:
        library = build_library(room)
        for session in falling(room):
            sweep_limits(program, report, session)
        for case in cases(room):
            sweep_allocations(program, library, report, case)


if __name__ == "__main__":
    perform(words_of(__doc__, seconds=180), refuse)
