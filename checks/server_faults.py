#!/usr/bin/env python3
"""Refuses `hdesk serve` memory, connections, its port and its output, and looks for a wrong answer or a lost one.

- Each allocation of a server of two analysts is refused in turn (`refuse.rs`). Each client has to be answered rightly, line
  by line, or that memory ran out; or its connection ends before its first reply, and the other's doesn't. The log that is
  printed has the cut that a client was told of. Or the server ends with the fault OutOfMemory, prints no log, and the client
  that it had begun to serve is answered to its end.
- The second connection can't be accepted: the first is served to its end, and no log is printed.
- A seventeenth client of a server of sixteen is turned away; nobody waits for it, and nothing is lost.
- Where standard output takes nothing, or is closed before the log is written, the program says so and ends with status 1.
- A fault of the dump is told before a port that is taken.

Needed are Linux, rustc and the GNU C library.
"""
from __future__ import annotations

import argparse
import contextlib
import os
import socket
import subprocess
import sys
import tempfile
from pathlib import Path
from typing import Iterator, NamedTuple

sys.dont_write_bytecode = True  # the checkout stays as it is

from dumps import Format, two_arrays
from refused import MOST_ALLOCATIONS, build_library
from report import Report, perform, words_of
from session import Ended, Program, Server, Wrong, native, want

SPELLED = Format()
CUT = "ok 1\nevent 0 fell 1 back 0\n"
OUT_OF_MEMORY = "no OutOfMemory\n"
FIRST_LINES = ["strength 0x2", "cut 0x1 e0", "strength 0x2", "quit"]
SECOND_LINES = ["strength 0x2", "events", "quit"]
LOG = "0 0 cut 0x1 e0 live\n"

ALL, IN_PART, ALONE = "all answered", "refused at a command", "a connection ended alone"
NEVER_OPEN, NO_SERVER, BEGUN = "refused at the opening", "ended before a connection", "ended after a connection had begun"
MET = [ALL, IN_PART, ALONE, NEVER_OPEN, NO_SERVER, BEGUN]


class Port:
    """A server whose port was told, or that ended before that."""

    def __init__(self, program: Program, words: list[str], **others: object) -> None:
        self.program = program
        self.faults = tempfile.TemporaryFile()
        words = [program.path, "serve", *words]
        self.process = program.start(words, stdin=subprocess.DEVNULL, stderr=self.faults, **others)
        self.told = self.process.stdout.readline().decode()
        self.number = int(self.told.split()[1]) if self.told else 0

    def ended(self) -> Ended:
        """How the server ended, and what it printed behind its port."""
        try:
            output, _ = self.process.communicate(timeout=self.program.wait)
        except subprocess.TimeoutExpired:
            raise Wrong("the server does not end") from None
        self.program.forget(self.process)
        self.faults.seek(0)
        return Ended(self.process.returncode, output.decode(), self.faults.read().decode())

    def say(self, lines: list[str]) -> str:
        """What a client is answered that sends these lines and nothing more, up to the end of its connection."""
        heard = b""
        with contextlib.suppress(ConnectionError), socket.create_connection(("127.0.0.1", self.number), self.program.wait) as one:
            one.sendall("".join(line + "\n" for line in lines).encode())
            while piece := one.recv(1 << 16):
                heard += piece
        return heard.decode()


# Each allocation refused.


class Log:
    """Whether the cut stands in the log, and what was refused so far."""

    def __init__(self) -> None:
        self.is_cut = False
        self.is_behind = False  # the desk of the first client hasn't come to the cut
        self.outcome = ALL

    def strength(self) -> str:
        return "ok 1\nUNREACHABLE\n" if self.is_cut else "ok 1\nSTRONG\n"

    def rights(self, line: str) -> list[str]:
        """The replies that a line may have, the right one first."""
        if line == "cut 0x1 e0":
            return [CUT, OUT_OF_MEMORY, "no Accepted 0\n"]
        if line == "events":
            return [f"ok 1\n{LOG}" if self.is_cut else "ok 0\n", OUT_OF_MEMORY, "no Behind\n"]
        if line == "quit":
            return ["ok 0\n"]
        return [self.strength(), OUT_OF_MEMORY, "no Behind\n"]

    def follow(self, lines: list[str], heard: str) -> None:
        """Follows a client: all its lines are answered, or none."""
        if not heard:
            self.outcome = ALONE
            return
        for line in lines:
            right = next((text for text in self.rights(line) if heard.startswith(text)), None)
            want(right is not None, f"{line} is answered {heard!r}")
            heard = heard[len(right):]
            if right != self.rights(line)[0]:
                self.outcome = IN_PART
            if right in (CUT, "no Accepted 0\n"):
                self.is_cut = True
        want(heard == "", f"the replies go on with {heard!r}")


def outcome_of(server: Port) -> str:
    """Serves two clients, one after the other, and tells what was refused."""
    if not server.told:
        ended = server.ended()
        if ended == Ended(2, "", "hdesk: OutOfMemory at 0\n"):
            return NEVER_OPEN
        want(ended == Ended(1, "", "hdesk: OutOfMemory\n"), f"it ends with {ended} before its port is told")
        return NO_SERVER
    log = Log()
    heard = [server.say(FIRST_LINES), server.say(SECOND_LINES)]
    ended = server.ended()
    if ended == Ended(1, "", "hdesk: OutOfMemory\n"):
        if not heard[0]:
            want(not heard[1], "the second client is served and the first isn't")
            return NO_SERVER
        log.follow(FIRST_LINES, heard[0])
        if heard[1]:
            log.follow(SECOND_LINES, heard[1])
        return BEGUN
    for lines, text in zip((FIRST_LINES, SECOND_LINES), heard):
        log.follow(lines, text)
    want(any(heard), "neither client is answered")
    want(ended == Ended(0, LOG if log.is_cut else "", ""), f"the server ends with {ended}")
    return log.outcome


class Refused(NamedTuple):
    """A run without one of its allocations."""

    number: int
    outcome: str
    is_refused: bool
    wrong: str


def run_without(program: Program, library: str, dump: str, number: int) -> Refused:
    reading, writing = os.pipe()
    os.set_blocking(reading, False)
    variables = dict(os.environ, LC_ALL="C", LD_PRELOAD=library, REFUSE=str(number), MARK=str(writing))
    try:
        server = Port(program, [dump, "--port", "0", "--analysts", "2"], env=variables, pass_fds=[writing])
        outcome, wrong = outcome_of(server), ""
    except Wrong as error:
        outcome, wrong = "", str(error)
    finally:
        os.close(writing)
    with os.fdopen(reading, "rb") as marks:
        return Refused(number, outcome, bool(marks.read()), wrong)


def sweep(program: Program, library: str, dump: str) -> Iterator[Refused]:
    """The runs without the first allocation, the second, and so on, up to the first to which nothing was refused."""
    block = 4 * (os.cpu_count() or 1)
    for first in range(1, MOST_ALLOCATIONS, block):
        runs = program.side_by_side(lambda number: run_without(program, library, dump, number), range(first, first + block))
        yield from (run for run in runs if run.is_refused)
        whole = [run for run in runs if not run.is_refused]
        if whole:
            yield whole[0]
            return
    raise Wrong(f"a run without allocation {MOST_ALLOCATIONS} still wants more")


def check_memory(program: Program, library: str, dump: str, report: Report) -> None:
    counts = dict.fromkeys(MET, 0)
    for run in sweep(program, library, dump):
        if run.wrong:
            report.note(False, f"without allocation {run.number}: {run.wrong}")
        else:
            counts[run.outcome] += 1
    report.note(not run.is_refused and run.outcome == ALL, f"nothing is refused in run {run.number}, and all are answered")
    for outcome, count in counts.items():
        report.note(count > 0, f"{outcome}: {count} runs")


# Connections, ports and outputs.


def check_accept(program: Program, library: str, dump: str, report: Report) -> None:
    variables = dict(os.environ, LC_ALL="C", LD_PRELOAD=library, ACCEPT="2")
    server = Port(program, [dump, "--port", "0", "--analysts", "3"], env=variables)
    with socket.create_connection(("127.0.0.1", server.number), program.wait) as first:
        first.sendall(b"cut 0x1 e0\n")
        heard = first.makefile("rb")
        report.note(heard.readline() + heard.readline() == CUT.encode(), "the first connection is served")
        with contextlib.suppress(ConnectionError):
            socket.create_connection(("127.0.0.1", server.number), program.wait).close()
        first.sendall(b"strength 0x2\nquit\n")
        report.note(heard.read() == b"ok 1\nUNREACHABLE\nok 0\n", "it is served to its end though the second isn't accepted")
    ended = server.ended()
    right = ended == Ended(1, "", "hdesk: cannot accept\n")
    report.note(right, f"a connection that can't be accepted: {ended}")


def check_seventeen(program: Program, dump: str, report: Report) -> None:
    server = program.serve(dump, 16)
    clients = [server.connect() for _ in range(16)]
    for who, client in enumerate(clients):
        want(client.ask("add 0x2") == ["ok 1", f"event {who} fell 0 back 0"], f"client {who} isn't served")
    report.note(is_turned_away(server), "a seventeenth client isn't answered")
    for client in clients:
        heard, seconds = client.timed("strength 0x2")
        want(heard == ["ok 1", "STRONG"] and seconds < 1, f"after a seventeenth client {heard!r} in {seconds:.1f} s")
    for client in clients:
        client.quit()
    log = server.log()
    report.note(log == [f"{who} {who} add 0x2 live" for who in range(16)], "the sixteen before it are answered, and lose nothing")


def is_turned_away(server: Server) -> bool:
    """Whether a client can't connect, or its connection ends without a reply."""
    try:
        late = server.connect()
        late.send(b"strength 0x2\n")
        return late.socket.recv(1) == b""
    except ConnectionError:
        return True


def check_outputs(program: Program, dump: str, report: Report) -> None:
    cannot_write = (1, "hdesk: cannot write\n")
    for words, text in (["stat", dump], ""), (["run", dump], "quit\n"), (["serve", dump, "--port", "0", "--analysts", "1"], ""):
        with open("/dev/full", "wb") as full:
            done = subprocess.run(
                [program.path, *words], input=text.encode(), stdout=full, stderr=subprocess.PIPE, timeout=program.wait, check=False
            )
        ended = (done.returncode, done.stderr.decode())
        report.note(ended == cannot_write, f"{words[0]} over a full device: {ended}")
    server = Port(program, [dump, "--port", "0", "--analysts", "1"])
    server.process.stdout.close()
    heard = server.say(["cut 0x1 e0", "quit"])
    status = server.process.wait(program.wait)
    program.forget(server.process)
    server.faults.seek(0)
    ended = (status, server.faults.read().decode())
    report.note(heard == CUT + "ok 0\n" and ended == cannot_write, f"a log that can't be printed: {ended}, and the client is served")


def check_order(program: Program, room: str, dump: str, report: Report) -> None:
    cut = Path(room) / "cut.hprof"
    cut.write_bytes(two_arrays(SPELLED)[:-1])
    with socket.create_server(("127.0.0.1", 0)) as taken:
        port = str(taken.getsockname()[1])
        for file, right in (str(cut), Ended(2, "", "hdesk: Truncated at 31\n")), (dump, Ended(1, "", "hdesk: cannot listen\n")):
            ended = program.finish([program.path, "serve", file, "--port", port, "--analysts", "1"])
            report.note(ended == right, f"a port that is taken, over {Path(file).name}: {ended}")


def check_faults(given: argparse.Namespace, report: Report) -> None:
    with Program(native(given.program, given.seconds), 20) as program, tempfile.TemporaryDirectory() as room:
        file = Path(room) / "arrays.hprof"
        file.write_bytes(two_arrays(SPELLED))
        dump, library = str(file), build_library(room)
        check_order(program, room, dump, report)
        check_outputs(program, dump, report)
        check_seventeen(program, dump, report)
        check_accept(program, library, dump, report)
        check_memory(program, library, dump, report)


if __name__ == "__main__":
    perform(words_of(__doc__, seconds=180), check_faults)
