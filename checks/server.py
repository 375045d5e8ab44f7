#!/usr/bin/env python3
"""Checks `hdesk serve` over real connections: odd clients beside others, and many edits from sixteen clients.

A server of two analysts is started for each of six clients, over a dump of two arrays:

- one that sends nothing, one that sends a byte a second, one that closes in the middle of a line, one that resets its
  connection, one that never reads its replies while it asks for many, and one that sends a line of 100 MB.

Beside each the other client is answered, each time within a second, and the server ends by itself and prints the log.

Two clients over a dump of three pages are told what fell since their own marks, as one cuts and undoes.

Then sixteen clients make 2,000 edits and undos over a larger dump, at once and at random. When all have stopped, each
asks for the strength of every object. The log that is printed has each event that a client was told of, under its
number. One analyst makes the same edits and undos with `hdesk run`: each does the same, and the strengths at the end
are those that each client was told.
"""
from __future__ import annotations

import argparse
import contextlib
import random
import socket
import sys
import tempfile
import threading
import time
from pathlib import Path
from typing import Callable, Iterator

sys.dont_write_bytecode = True  # the checkout stays as it is

from dumps import REFERENCE_KINDS, Format, ReferenceClasses, two_arrays
from report import Report, perform, words_of
from session import Client, Program, Talk, Wrong, want

EDITORS = 16
EDITS_OF_EACH = 125
SPELLED = Format()


class LargerDump:
    """Arrays that hold arrays and reference objects of all four kinds, at random."""

    ARRAYS = range(0x1000, 0x1100)
    REFERENCES = range(0x2000, 0x2040)

    def __init__(self, draw: random.Random) -> None:
        self.ids = list(self.ARRAYS) + list(self.REFERENCES)
        self.held = {name: [draw.choice(self.ids) for _ in range(draw.randint(0, 4))] for name in self.ARRAYS}
        self.roots = draw.sample(self.ids, 12)
        self.referents = {name: draw.choice(self.ids) for name in self.REFERENCES}
        self.classes = ReferenceClasses(SPELLED, 0x100, 0x200)

    def bytes(self) -> bytes:
        return SPELLED.dump(*self.classes.records(), SPELLED.segment(*self.subs()))

    def subs(self) -> Iterator[bytes]:
        yield from self.classes.class_dumps()
        for target in self.roots:
            yield SPELLED.root(target)
        for name, held in self.held.items():
            yield SPELLED.array(name, held)
        class_ids = list(self.classes.of_kind.values())
        for place, (name, target) in enumerate(self.referents.items()):
            yield self.classes.instance(name, class_ids[place % 4], target)

    def edit(self, draw: random.Random) -> str:
        """A line with an edit that the dump doesn't refuse."""
        [kind] = draw.choices(["cut", "clear", "clearall", "cutall", "drop", "add"], [70, 18, 1, 1, 8, 3])
        if kind == "cut":
            name = draw.choice([name for name, held in self.held.items() if held])
            return f"cut {name:#x} e{draw.randrange(len(self.held[name]))}"
        if kind == "clear":
            return f"clear {draw.choice(self.REFERENCES):#x}"
        if kind == "clearall":
            return f"clearall {draw.choice(REFERENCE_KINDS)}"
        if kind == "cutall":
            return f"cutall {draw.choice(list(self.classes.of_kind.values())):#x} f0"
        if kind == "drop":
            return f"drop {draw.randrange(len(self.roots))}"
        return f"add {draw.choice(self.ids):#x}"


# Odd clients, each beside another one.


def ask_at_once(other: Client, line: str, wanted: list[str]) -> None:
    """Asks, and wants this reply within a second."""
    began = time.monotonic()
    heard = other.ask(line)
    want(heard == wanted, f"{line} beside it is answered {heard!r}, and not {wanted!r}")
    took = time.monotonic() - began
    want(took < 1, f"{line} beside it is answered after {took:.1f} seconds")


def look(other: Client) -> None:
    ask_at_once(other, "strength 0x2", ["ok 1", "STRONG"])


def sends_nothing(odd: Client, other: Client) -> None:
    for _ in range(3):
        look(other)
        time.sleep(0.3)
    odd.close()


def sends_slowly(odd: Client, other: Client) -> None:
    for byte in b"quit\n":
        odd.send(bytes([byte]))
        look(other)
        time.sleep(1)
    want(odd.hear() == ["ok 0"], "the slow line is not answered")
    odd.close()


def closes_in_a_line(odd: Client, other: Client) -> None:
    odd.send(b"stre")
    look(other)
    odd.close()
    look(other)


def resets(odd: Client, other: Client) -> None:
    odd.send(b"strength 0x2\nstre")
    look(other)
    odd.reset()
    look(other)


def never_reads(odd: Client, other: Client) -> None:
    odd.socket.settimeout(1)
    sent = 0
    try:
        while sent < 1 << 30:
            sent += odd.socket.send(b"slots 0x1\n" * 10_000)
            look(other)
    except socket.timeout:
        pass
    want(sent < 1 << 30, "it never has to wait")
    look(other)
    odd.close()
    look(other)


def sends_a_long_line(odd: Client, other: Client) -> None:
    def send() -> None:
        with contextlib.suppress(OSError, Wrong):  # where it isn't taken, a reply is missing
            for _ in range(100):
                odd.send(b"x" * 1_000_000)
            odd.send(b"\nquit\n")

    sender = threading.Thread(target=send, daemon=True)
    sender.start()
    while sender.is_alive():
        look(other)
        time.sleep(0.05)
    want(odd.hear() == ["no LineTooLong"], "the line is not answered no LineTooLong")
    want(odd.hear() == ["ok 0"], "the line after it is not answered")
    odd.close()


ODD_CLIENTS = [
    (sends_nothing, "a client that sends nothing"),
    (sends_slowly, "a client that sends a byte a second"),
    (closes_in_a_line, "a client that closes in the middle of a line"),
    (resets, "a client that resets its connection"),
    (never_reads, "a client that never reads its replies"),
    (sends_a_long_line, "a client that sends a line of 100 MB"),
]


def check_odd_client(program: Program, dump: str, act: Callable[[Client, Client], None]) -> None:
    server = program.serve(dump, 2)
    odd, other = server.connect(), server.connect()
    look(other)
    act(odd, other)
    ask_at_once(other, "cut 0x1 e0", ["ok 1", "event 0 fell 1 back 0"])
    ask_at_once(other, "strength 0x2", ["ok 1", "UNREACHABLE"])
    other.quit()
    log = server.log()
    want(log == ["0 1 cut 0x1 e0 live"], f"the log has {log!r}, and not the cut of analyst 1")


# Two clients over a dump of several pages.


def wide_array() -> bytes:
    """0x1 holds 3,000 empty arrays, 0x2 to 0xbb9. A root is on 0x1."""
    held = range(2, 3002)
    return SPELLED.dump(SPELLED.segment(SPELLED.root(1), SPELLED.array(1, held), *(SPELLED.array(name) for name in held)))


def check_marks(program: Program, dump: str) -> None:
    """One client cuts the last element and takes that back; what fell since each client's marks is the last array, and then none."""
    server = program.serve(dump, 2)
    first, second = server.connect(), server.connect()
    for client, line, right in (
        (first, "cut 0x1 e2999", ["ok 1", "event 0 fell 1 back 0"]),
        (first, "fell 0", ["ok 1", "0xbb9"]),
        (second, "fell 0", ["ok 1", "0xbb9"]),
        (second, "mark", ["ok 1", "mark 1"]),
        (first, "undo", ["ok 1", "event 1 fell 0 back 1"]),
        (first, "fell 0", ["ok 0"]),
        (second, "fell 0", ["ok 0"]),
        (second, "fell 1", ["ok 0"]),
        (second, "strength 0xbb9", ["ok 1", "STRONG"]),
    ):
        heard = client.ask(line)
        want(heard == right, f"{line} is answered {heard!r}, and not {right!r}")
    first.quit()
    second.quit()
    want(server.log() == ["0 0 cut 0x1 e2999 undone", "1 0 undo 0"], "the log has other events")


# Sixteen clients that edit.


class Editor(threading.Thread):
    """A client that edits and undoes, and then waits for the others and asks for all strengths."""

    def __init__(self, client: Client, larger: LargerDump, draw: random.Random, others: threading.Barrier) -> None:
        super().__init__(daemon=True)
        self.client, self.larger, self.draw, self.others = client, larger, draw, others
        self.told: dict[int, tuple[str, str]] = {}
        self.live: list[int] = []
        self.strengths: list[list[str]] = []
        self.wrong: Exception | None = None

    def run(self) -> None:
        try:
            self.edit()
            self.others.wait()
            self.strengths = strengths_of(self.client, self.larger)
            self.others.wait()
            self.client.quit()
        except Exception as wrong:
            self.wrong = wrong
            self.others.abort()

    def edit(self) -> None:
        for _ in range(EDITS_OF_EACH):
            undoes = self.live and self.draw.random() < 0.45
            if undoes:
                line = f"undo {self.live.pop(self.draw.randrange(len(self.live)))}"
            else:
                line = self.larger.edit(self.draw)
            heard = self.client.ask(line)
            want(heard[0] == "ok 1", f"{line} is answered {heard!r}")
            number = int(heard[1].split()[1])
            self.told[number] = (line, heard[1])
            if not undoes:
                self.live.append(number)


def strengths_of(analyst: Talk, larger: LargerDump) -> list[list[str]]:
    analyst.send("".join(f"strength {name:#x}\n" for name in larger.ids).encode())
    return [analyst.hear() for _ in larger.ids]


def command_of(line: str) -> tuple[str, str | None]:
    """What one analyst says for an event of the log, and whether it is live or undone where it is an edit."""
    words = line.split()[2:]
    return (" ".join(words), None) if words[0] == "undo" else (" ".join(words[:-1]), words[-1])


def check_log(log: list[str], editors: list[Editor]) -> None:
    told = {number: (who, *said) for who, editor in enumerate(editors) for number, said in editor.told.items()}
    count = sum(len(editor.told) for editor in editors)
    want(sorted(told) == list(range(len(log))) and count == len(log), "not every event of the log was told to one client")
    want(len(log) == EDITORS * EDITS_OF_EACH, f"the log has {len(log)} events")
    undone = {int(line.split()[1]) for _, line, _ in told.values() if line.startswith("undo")}
    for number, line in enumerate(log):
        who, said, _ = told[number]
        mark = "" if said.startswith("undo") else " undone" if number in undone else " live"
        want(line == f"{number} {who} {said}{mark}", f"event {number} is {said}{mark} of analyst {who}, and not {line}")


def replay(program: Program, dump: str, larger: LargerDump, log: list[str], editors: list[Editor]) -> list[list[str]]:
    """One analyst does what the log says. The strengths at the end."""
    analyst = program.run(dump)
    told = {number: answer for editor in editors for number, (_, answer) in editor.told.items()}
    for number, line in enumerate(log):
        heard = analyst.ask(command_of(line)[0])
        want(heard == ["ok 1", told[number]], f"event {number} did {told[number]}, and does {heard!r} for one analyst")
    strengths = strengths_of(analyst, larger)
    analyst.quit()
    for who, editor in enumerate(editors):
        want(editor.strengths == strengths, f"analyst {who} was told other strengths than the replay")
    return strengths


def check_editors(program: Program, dump: str, larger: LargerDump, seed: str, report: Report) -> None:
    server = program.serve(dump, EDITORS)
    others = threading.Barrier(EDITORS)
    editors = [Editor(server.connect(), larger, random.Random(f"{seed} {who}"), others) for who in range(EDITORS)]
    for editor in editors:
        editor.start()
    for editor in editors:
        editor.join()
    # The others were only told that one broke off.
    wrongs = [editor.wrong for editor in editors if editor.wrong and not isinstance(editor.wrong, threading.BrokenBarrierError)]
    want(not wrongs, f"a client that edits: {wrongs[:1]}")
    log = server.log()
    check_log(log, editors)
    report.note(True, f"{EDITORS} clients are told of {len(log)} events, which the log has")
    strengths = replay(program, dump, larger, log, editors)
    kinds = len({tuple(reply) for reply in strengths})
    told = f"the strengths of {len(strengths)} objects that each client was told, {kinds} kinds of them"
    report.note(kinds > 1, f"one analyst with the same edits has {told}")


def check_server(given: argparse.Namespace, report: Report) -> None:
    with Program(given.program, given.seconds) as program, tempfile.TemporaryDirectory() as room:
        dump = Path(room) / "dump.hprof"
        dump.write_bytes(two_arrays(SPELLED))
        for act, text in ODD_CLIENTS:
            try:
                check_odd_client(program, str(dump), act)
                report.note(True, f"{text}; the other is answered at once, and the log is printed")
            except (Wrong, OSError) as wrong:
                report.note(False, f"{text}: {wrong}")
        dump.write_bytes(wide_array())
        check_marks(program, str(dump))
        report.note(True, "two clients over shared pages: each is told what fell since its own marks")
        larger = LargerDump(random.Random(given.seed))
        dump.write_bytes(larger.bytes())
        check_editors(program, str(dump), larger, given.seed, report)


if __name__ == "__main__":
    taken = words_of(__doc__, seconds=120)
    taken.add_argument("--seed", metavar="N", default="1", help="another number draws other edits")
    perform(taken, check_server)
