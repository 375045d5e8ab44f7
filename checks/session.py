"""Runs hdesk and talks to it: sessions of one analyst, counts, and servers with their clients.

A `Program` starts it. Each wait for it ends after a number of seconds, with `Wrong`. What a `Program` started is killed
when its `with` block ends, along with all that it started in turn.
"""
from __future__ import annotations

import argparse
import os
import re
import select
import signal
import socket
import struct
import subprocess
import tempfile
import threading
import time
from concurrent.futures import ThreadPoolExecutor
from pathlib import Path
from typing import IO, Callable, Iterable, NamedTuple, Sequence, TypeVar

TOP = Path(__file__).resolve().parent.parent
SCRIPT = TOP / "hdesk"
WAIT = 60.0
HEAD = re.compile(r"ok (0|[1-9][0-9]*)|no [A-Z][A-Za-z]*( [0-9]+)?")

Item, Result = TypeVar("Item"), TypeVar("Result")


class Wrong(Exception):
    """What isn't as it has to be; its text says what."""


def want(holds: bool, text: str) -> None:
    """Raises `Wrong` where something doesn't hold."""
    if not holds:
        raise Wrong(text)


class Ended(NamedTuple):
    """A run that came to its end."""

    status: int
    output: str
    faults: str


class Measured(NamedTuple):
    """A run that came to its end, and what it took: seconds, and kilobytes at most."""

    status: int
    said: str
    seconds: float
    kilobytes: int


class Waiting:
    """Waits until a descriptor can be read or written."""

    def __init__(self, descriptor: int, event: int, wait: float) -> None:
        self._poll, self._wait = select.poll(), wait
        self._poll.register(descriptor, event)

    def end(self) -> None:
        if not self._poll.poll(self._wait * 1000):
            raise Wrong(f"the program kept still for {self._wait:g} seconds")


class Reader:
    """Lines of a descriptor."""

    def __init__(self, descriptor: int, wait: float) -> None:
        self._descriptor, self._rest = descriptor, b""
        self._waiting = Waiting(descriptor, select.POLLIN, wait)

    def _piece(self) -> bytes:
        """What comes next; nothing at the end."""
        self._waiting.end()
        return os.read(self._descriptor, 1 << 16)

    def lines(self, count: int) -> list[str]:
        pieces, missing = [self._rest], count - self._rest.count(b"\n")
        while missing > 0:
            piece = self._piece()
            if not piece:
                raise Wrong(f"the output ends {missing} lines too early, with {b''.join(pieces)[-100:]!r}")
            pieces.append(piece)
            missing -= piece.count(b"\n")
        *lines, self._rest = b"".join(pieces).split(b"\n", count)
        return [line.decode() for line in lines]

    def to_end(self) -> str:
        pieces = [self._rest]
        while True:
            pieces.append(self._piece())
            if not pieces[-1]:
                return b"".join(pieces).decode()


class Talk:
    """Lines that an analyst sends, and the replies."""

    def __init__(self, reading: int, writing: int, wait: float) -> None:
        self.reader = Reader(reading, wait)
        self._writing, self._waiting = writing, Waiting(writing, select.POLLOUT, wait)
        os.set_blocking(writing, False)

    def send(self, data: bytes) -> None:
        left = memoryview(data)
        while left:
            try:
                left = left[os.write(self._writing, left):]
            except BlockingIOError:
                self._waiting.end()

    def hear(self) -> list[str]:
        """One reply: its lines, the one with `ok N` or `no NAME` first."""
        head = self.reader.lines(1)
        if not HEAD.fullmatch(head[0]):
            raise Wrong(f"a reply begins with {head[0]!r}, and not with ok or no")
        return head + self.reader.lines(int(head[0][3:]) if head[0].startswith("ok") else 0)

    def ask(self, line: str) -> list[str]:
        self.send(line.encode() + b"\n")
        return self.hear()

    def timed(self, line: str) -> tuple[list[str], float]:
        """The reply to a line, and the seconds from the line sent to the last byte read."""
        began = time.perf_counter()
        reply = self.ask(line)
        return reply, time.perf_counter() - began

    def rows(self, line: str) -> list[list[str]]:
        """The lines of the reply to a line that isn't refused, each split into words."""
        head, *lines = self.ask(line)
        if not head.startswith("ok"):
            raise Wrong(f"{line} is answered {head}")
        return [text.split() for text in lines]


class Session(Talk):
    """An analyst's session with `hdesk run`."""

    def __init__(self, process: subprocess.Popen[bytes], wait: float) -> None:
        super().__init__(process.stdout.fileno(), process.stdin.fileno(), wait)
        self.process, self._seconds = process, wait

    def quit(self) -> None:
        reply = self.ask("quit")
        rest = self.reader.to_end()
        status = self.process.wait(self._seconds)
        if reply != ["ok 0"] or rest or status != 0:
            raise Wrong(f"quit is answered {reply!r} and {rest!r}, with status {status}")


class Client(Talk):
    """An analyst's connection to a server."""

    def __init__(self, port: int, wait: float) -> None:
        self.socket = socket.create_connection(("127.0.0.1", port), timeout=wait)
        super().__init__(self.socket.fileno(), self.socket.fileno(), wait)

    def quit(self) -> None:
        reply = self.ask("quit")
        if reply != ["ok 0"]:
            raise Wrong(f"quit is answered {reply!r}")
        self.close()

    def close(self) -> None:
        self.socket.close()

    def reset(self) -> None:
        """Closes so that the other side sees a reset, and not an end."""
        self.socket.setsockopt(socket.SOL_SOCKET, socket.SO_LINGER, struct.pack("ii", 1, 0))
        self.close()


class Server:
    """`hdesk serve` on a port that the system chooses."""

    def __init__(self, process: subprocess.Popen[bytes], faults: IO[bytes], wait: float) -> None:
        self._process, self._faults, self._wait = process, faults, wait
        self._reader = Reader(process.stdout.fileno(), wait)
        [line] = self._reader.lines(1)
        if not re.fullmatch("listening [0-9]+", line):
            raise Wrong(f"a server begins with {line!r}, and not with its port")
        self._port = int(line.split()[1])

    def connect(self) -> Client:
        return Client(self._port, self._wait)

    def log(self) -> list[str]:
        """The lines of the log, once all connections have ended."""
        log = self._reader.to_end()
        status = self._process.wait(self._wait)
        self._faults.seek(0)
        faults = self._faults.read()
        if status != 0 or faults:
            raise Wrong(f"the server ends with status {status} and says {faults!r}")
        return log.splitlines()


class Program:
    """A program at a path, and what was started of it. Several threads may start it at once."""

    def __init__(self, path: str, wait: float = WAIT) -> None:
        self.path, self.wait = path, wait
        self._lock = threading.Lock()
        self._started: set[subprocess.Popen[bytes]] = set()
        self._is_closed = False

    def __enter__(self) -> Program:
        return self

    def __exit__(self, *_: object) -> None:
        self.close()

    def close(self) -> None:
        """Kills what was started and hasn't ended. Nothing is started after this."""
        with self._lock:
            self._is_closed = True
            started, self._started = self._started, set()
        for process in started:
            kill(process)

    def start(self, words: Sequence[str], **others: object) -> subprocess.Popen[bytes]:
        """Starts a command in a group of its own, so that it can be killed with all that it starts."""
        process = subprocess.Popen(words, stdout=subprocess.PIPE, bufsize=0, start_new_session=True, **others)
        with self._lock:
            if not self._is_closed:
                self._started.add(process)
                return process
        kill(process)
        raise Wrong("the program was started too late")

    def forget(self, process: subprocess.Popen[bytes]) -> None:
        """Says that a process was killed or waited for."""
        with self._lock:
            self._started.discard(process)

    def run(self, dump: str, *words: str) -> Session:
        return Session(self.start([self.path, "run", dump, *words], stdin=subprocess.PIPE), self.wait)

    def serve(self, dump: str, analysts: int, *others: str) -> Server:
        faults = tempfile.TemporaryFile()
        words = [self.path, "serve", dump, "--port", "0", "--analysts", str(analysts), *others]
        return Server(self.start(words, stdin=subprocess.DEVNULL, stderr=faults), faults, self.wait)

    def finish(self, words: Sequence[str], text: str = "", **others: object) -> Ended:
        """Runs a command over an input, to its end."""
        process = self.start(words, stdin=subprocess.PIPE, stderr=subprocess.PIPE, **others)
        try:
            output, faults = process.communicate(text.encode(), self.wait)
        except subprocess.TimeoutExpired:
            raise Wrong(f"{' '.join(words[:3])} does not end within {self.wait:g} seconds") from None
        finally:
            kill(process)
            self.forget(process)
        return Ended(process.returncode, output.decode(), faults.decode())

    def measure(self, words: Sequence[str]) -> Measured:
        """Runs a command to its end, and measures it. What it said is its output and its faults."""
        began = time.monotonic()
        process = self.start(words, stdin=subprocess.DEVNULL, stderr=subprocess.STDOUT)
        try:
            said = Reader(process.stdout.fileno(), self.wait).to_end()
            _, status, used = os.wait4(process.pid, 0)
            seconds = time.monotonic() - began
            process.returncode = -os.WTERMSIG(status) if os.WIFSIGNALED(status) else os.WEXITSTATUS(status)
        finally:
            kill(process)
            self.forget(process)
        return Measured(process.returncode, said, seconds, used.ru_maxrss)

    def stat(self, dump: str) -> str:
        """What `hdesk stat` prints."""
        ended = self.finish([self.path, "stat", dump])
        if ended.status != 0 or ended.faults:
            raise Wrong(f"stat ends with status {ended.status} and says {ended.faults!r}")
        return ended.output

    def side_by_side(self, work: Callable[[Item], Result], items: Iterable[Item]) -> list[Result]:
        """The results of `work` for each item, in order, found by as many threads as there are processors."""
        pool = ThreadPoolExecutor(os.cpu_count() or 1)
        futures = [pool.submit(work, item) for item in items]
        try:
            return [future.result() for future in futures]
        except BaseException:
            for future in futures:
                future.cancel()
            self.close()  # so that no thread goes on waiting
            raise
        finally:
            pool.shutdown()


def kill(process: subprocess.Popen[bytes]) -> None:
    """Kills a process that wasn't waited for, and its group; then waits for it."""
    if process.returncode is None:
        try:
            os.killpg(process.pid, signal.SIGKILL)
        except ProcessLookupError:
            pass
        process.wait()
    for stream in (process.stdin, process.stdout, process.stderr):
        if stream:
            try:
                stream.close()
            except OSError:
                pass


def native(path: str, seconds: float) -> str:
    """The file that the script `hdesk` at the top runs, where the path is that of the script; else the path.

    The script itself can't be run with a limit of memory, and at each start it looks for the program.
    """
    if Path(path).resolve() != SCRIPT or not Path("/proc/self/exe").exists():
        return path
    with Program(path, seconds) as program:
        process = program.start([path], stdin=subprocess.PIPE)
        session = Session(process, seconds)
        session.ask("strength 0x2")
        return os.readlink(f"/proc/{process.pid}/exe")


def add_program(words: argparse.ArgumentParser, default: Path = SCRIPT) -> None:
    """Adds the word that names the program."""
    shown = default.relative_to(TOP)
    told = f"the program; {shown} of the repository if not given"
    words.add_argument("--program", metavar="PATH", type=program_path, default=str(default), help=told)


def program_path(text: str) -> str:
    path = os.path.abspath(text)
    if not os.path.isfile(path) or not os.access(path, os.X_OK):
        raise argparse.ArgumentTypeError(f"there is no program {text}")
    return path
