#!/usr/bin/env python3
"""Checks `hdesk web` over raw connections: its answers to request heads, its messages, and odd clients beside one with a desk.

Over a dump of two arrays it sends

- heads for each row of the table of docs/PROTOCOL.md, whole and in pieces, and wants the status, the fields and the body of each answer;
- messages whole, in fragments and many at once, too long for a line and for a message, with newlines, of bytes, unmasked;
- to one desk what others took it up with: its edits, marks, names and private part are there again, for the next connection;
- beside a client that is answered within a second: one that says nothing, one that sends half a head, one that sends half a frame
  at a desk of its own, one that never reads, and 200 at once, of which no more are served than there may be.

In the end both desks quit, and the log is printed with the edits of both.
"""
from __future__ import annotations

import argparse
import contextlib
import re
import select
import socket
import struct
import subprocess
import sys
import tempfile
import time
from pathlib import Path
from typing import Dict, List, NamedTuple, Optional, Tuple

sys.dont_write_bytecode = True  # the checkout stays as it is

from dumps import Format, two_arrays
from report import Report, perform, words_of
from session import Program, Reader, Wrong, want

ANALYSTS = 2
MOST_CONNECTIONS = ANALYSTS + 64
PAGE = b"<!DOCTYPE html><title>a page</title>\n"
KEY, ACCEPT = "dGhlIHNhbXBsZSBub25jZQ==", "s3pPLMBiTxaQ9kYGzzhZRbK+xOo="  # the example of RFC 6455, section 1.3
POLICY = "default-src 'none'; script-src 'unsafe-inline'; style-src 'unsafe-inline'; img-src data:; connect-src 'self'"
TEXT, BINARY, CLOSE, PING, PONG = 1, 2, 8, 9, 10
WAIT = 30.0


class Answer(NamedTuple):
    """An answer after which the connection closed."""

    status: int
    fields: Dict[str, str]
    body: bytes


class Web:
    """`hdesk web` on a port that the system chooses."""

    def __init__(self, program: Program, dump: str, page: str) -> None:
        self._faults, self._wait = tempfile.TemporaryFile(), program.wait
        words = [program.path, "web", dump, "--port", "0", "--analysts", str(ANALYSTS), "--page", page]
        self._process = program.start(words, stdin=subprocess.DEVNULL, stderr=self._faults)
        self._reader = Reader(self._process.stdout.fileno(), program.wait)
        [line] = self._reader.lines(1)
        want(re.fullmatch("listening [0-9]+", line) is not None, f"the server begins with {line!r}, and not with its port")
        self.port = int(line.split()[1])

    def connect(self) -> socket.socket:
        return socket.create_connection(("127.0.0.1", self.port), timeout=WAIT)

    def log(self) -> List[str]:
        log = self._reader.to_end()
        status = self._process.wait(self._wait)
        self._faults.seek(0)
        want(status == 0, f"the server ends with status {status} and says {self._faults.read()!r}")
        return log.splitlines()

    def ask(self, head: bytes, pieces: int = 1, end: bool = False) -> Answer:
        """The answer to what is sent, in pieces of about one length; with `end`, nothing more will come."""
        with self.connect() as link:
            step = -(-len(head) // pieces)
            for at in range(0, len(head), step):
                with contextlib.suppress(ConnectionError):  # an answer may come before all is sent
                    link.sendall(head[at : at + step])
                if pieces > 1:
                    time.sleep(0.01)
            if end:
                link.shutdown(socket.SHUT_WR)
            return answer_of(to_end(link))

    def head(self, target: str = "/", method: str = "GET", host: Optional[str] = None, *fields: str) -> bytes:
        """A request head with one Host, by default the right one."""
        lines = [f"{method} {target} HTTP/1.1", f"Host: {host or self.host()}", *fields]
        return "".join(f"{line}\r\n" for line in lines).encode() + b"\r\n"

    def host(self) -> str:
        return f"127.0.0.1:{self.port}"

    def upgrade(self, origin: Optional[str] = None, host: Optional[str] = None, key: str = KEY, version: str = "13") -> bytes:
        """An upgrade for a desk, by default one that is right. An empty origin leaves it out."""
        fields = ["Connection: keep-alive, Upgrade", "Upgrade: websocket", f"Sec-WebSocket-Version: {version}", f"Sec-WebSocket-Key: {key}"]
        if origin != "":
            fields.append(f"Origin: {origin or 'http://' + (host or self.host())}")
        return self.head("/desk", "GET", host, *fields)


def to_end(link: socket.socket) -> bytes:
    pieces = []
    while True:
        try:
            piece = link.recv(1 << 16)
        except ConnectionError:
            piece = b""
        if not piece:
            return b"".join(pieces)
        pieces.append(piece)


def answer_of(text: bytes) -> Answer:
    head, _, body = text.partition(b"\r\n\r\n")
    first, *lines = head.decode().split("\r\n")
    found = re.fullmatch(r"HTTP/1\.1 ([0-9]{3}) [A-Za-z ]+", first)
    if not found:
        raise Wrong(f"an answer begins with {first!r}")
    return Answer(int(found[1]), dict(line.split(": ", 1) for line in lines), body)


class Socket:
    """A WebSocket that has a desk."""

    def __init__(self, web: Web, behind: bytes = b"") -> None:
        """Takes a desk. What is given is sent right behind the head."""
        self.link = web.connect()
        self.link.sendall(web.upgrade() + behind)
        self._rest = b""
        while b"\r\n\r\n" not in self._rest:
            piece = self.link.recv(4096)
            if not piece:
                raise Wrong(f"an upgrade is answered {self._rest!r}")
            self._rest += piece
        head, _, self._rest = self._rest.partition(b"\r\n\r\n")
        want(head.startswith(b"HTTP/1.1 101 "), f"an upgrade is answered {head!r}")
        fields = {name.lower(): value for name, value in (line.split(": ", 1) for line in head.decode().split("\r\n")[1:])}
        want(fields.get("sec-websocket-accept") == ACCEPT, f"an upgrade is answered with {fields!r}")

    def _take(self, count: int) -> bytes:
        while len(self._rest) < count:
            piece = self.link.recv(1 << 16)
            if not piece:
                raise Wrong("the connection ends within a frame")
            self._rest += piece
        taken, self._rest = self._rest[:count], self._rest[count:]
        return taken

    def hear(self) -> Tuple[int, bytes]:
        """The kind and the payload of the next frame."""
        first, second = self._take(2)
        length = second & 0x7F
        if length == 126:
            [length] = struct.unpack(">H", self._take(2))
        elif length == 127:
            [length] = struct.unpack(">Q", self._take(8))
        want(first & 0x80 != 0 and second & 0x80 == 0, "a frame of the server is no whole message, or masked")
        return first & 0xF, self._take(length)

    def send(self, text: str) -> None:
        self.link.sendall(frame(TEXT, text.encode()))

    def hear_reply(self) -> List[str]:
        kind, payload = self.hear()
        want(kind == TEXT and payload.endswith(b"\n"), f"a reply is a frame of kind {kind}, {payload[:40]!r}")
        return payload.decode().splitlines()

    def ask(self, text: str) -> List[str]:
        self.send(text)
        return self.hear_reply()

    def closed_with(self) -> int:
        """The code with which the server closes."""
        kind, payload = self.hear()
        want(kind == CLOSE, f"instead of a close comes a frame of kind {kind}, {payload[:40]!r}")
        return int(struct.unpack(">H", payload[:2])[0])

    def leave(self) -> None:
        self.link.close()


def frame(kind: int, payload: bytes, is_last: bool = True, masked: bool = True) -> bytes:
    """A frame of a client."""
    bit, mask = (0x80 if masked else 0), b"\x5a\xa5\x3c\xc3"
    head = bytes([(0x80 if is_last else 0) | kind])
    if len(payload) < 126:
        head += bytes([bit | len(payload)])
    elif len(payload) < 1 << 16:
        head += struct.pack(">BH", bit | 126, len(payload))
    else:
        head += struct.pack(">BQ", bit | 127, len(payload))
    if not masked:
        return head + payload
    repeated = mask * (len(payload) // 4 + 1)
    return head + mask + bytes(a ^ b for a, b in zip(payload, repeated))


def take_again(web: Web) -> Socket:
    """A desk that a connection has just freed. The server may not have seen yet that it ended."""
    for _ in range(100):
        with contextlib.suppress(Wrong):
            return Socket(web)
        time.sleep(0.05)
    raise Wrong("the desk isn't free again")


# Answers to request heads.


def refusals(web: Web) -> List[Tuple[str, bytes, int]]:
    """Heads by what they show, and the status of the answer to each."""
    own, twice = f"http://{web.host()}", f"Host: {web.host()}\r\n"
    many = [f"X-{number}: 1" for number in range(140)]
    return [
        ("bytes that are no head", b"\x00\x01 nonsense\r\n\r\n", 400),
        ("a head with too many fields", web.head("/", "GET", None, *many), 431),
        ("a head longer than 16 KiB", web.head("/", "GET", None, f"X: {'x' * 17_000}"), 431),
        ("no Host", b"GET / HTTP/1.1\r\n\r\n", 403),
        ("two Hosts", b"GET / HTTP/1.1\r\n" + twice.encode() * 2 + b"\r\n", 403),
        ("another Host", web.head(host=f"localhost.example:{web.port}"), 403),
        ("the Host without its port", web.head(host="127.0.0.1"), 403),
        ("another port in the Host", web.head(host=f"127.0.0.1:{web.port}0"), 403),
        ("another Host, path and method", web.head("/other", "POST", "example.org"), 403),
        ("another Host for a desk", web.upgrade(host="example.org"), 403),
        ("another path", web.head("/other"), 404),
        ("a query", web.head("/?a"), 404),
        ("a path with dots", web.head("/../desk"), 404),
        ("another path and method", web.head("/other", "POST"), 404),
        ("another method", web.head("/", "POST", None, "Content-Length: 4") + b"quit", 405),
        ("another method for a desk", web.head("/desk", "DELETE"), 405),
        ("a desk without an upgrade", web.head("/desk"), 404),
        ("the head of a desk", web.head("/desk", "HEAD"), 404),
        ("an upgrade without an Origin", web.upgrade(origin=""), 403),
        ("another Origin", web.upgrade(origin="http://example.org"), 403),
        ("an Origin that begins with the right one", web.upgrade(origin=own + ".example.org"), 403),
        ("an Origin that the right one begins with", web.upgrade(origin=own[:-1]), 403),
        ("an Origin of another scheme", web.upgrade(origin=own.replace("http", "https")), 403),
        ("the Origin of the other name", web.upgrade(origin=f"http://localhost:{web.port}"), 403),
        ("an Origin that is null", web.upgrade(origin="null"), 403),
        ("a key that is none", web.upgrade(key="short"), 400),
        ("another version", web.upgrade(version="8"), 400),
    ]


def check_heads(web: Web, report: Report) -> None:
    page = web.ask(web.head())
    report.note(page.status == 200 and page.body == PAGE, "the page is given as it is")
    policy = {"Content-Type": "text/html; charset=utf-8", "Content-Security-Policy": POLICY, "X-Content-Type-Options": "nosniff"}
    wanted = {**policy, "Cache-Control": "no-store", "Content-Length": str(len(PAGE)), "Connection": "close"}
    report.note(page.fields == wanted, "with these fields and no others")
    report.note(web.ask(web.head("/", "HEAD")) == page._replace(body=b""), "its head alone is that of the page")
    report.note(web.ask(web.head(host=f"localhost:{web.port}")) == page, "by its other name too")
    report.note(web.ask(web.head(), pieces=12) == page, "and to a head in twelve pieces")
    report.note(web.ask(web.head()[:-5], end=True).status == 400, "a head that is cut off is answered 400")
    for name, head, status in refusals(web):
        answer = web.ask(head)
        report.note(answer.status == status and not answer.body, f"{name}: {status}")
    report.note(web.ask(web.head("/", "PUT")).fields.get("Allow") == "GET, HEAD", "a refused method is told which there are")


# Messages.


def check_messages(web: Web, report: Report) -> None:
    desk = Socket(web, behind=frame(TEXT, b"strength 0x2"))
    report.note(desk.hear_reply() == ["ok 1", "STRONG"], "a message right behind the head is answered")
    for name, text, reply in (
        ("a newline at the end", "strength 0x2\n", ["ok 1", "STRONG"]),
        ("a newline within", "strength 0x2\nquit", ["no BadArgument"]),
        ("a newline in the command", "qu\nit", ["no BadArgument"]),
        ("two newlines at the end", "strength 0x2\n\n", ["no BadArgument"]),
        ("an empty message", "", ["no UnknownCommand"]),
        ("4,097 bytes", " " * 4097, ["no LineTooLong"]),
        ("70,000 bytes", "strength 0x2 " + "x" * 70_000, ["no LineTooLong"]),
        ("70,000 bytes with newlines", "strength 0x2\n" * 6_000, ["no LineTooLong"]),
        ("a refusal", "strength 0x9", ["no NoSuchObject"]),
    ):
        heard = desk.ask(text)
        report.note(heard == reply, f"{name}: {reply[-1]}" if heard == reply else f"{name}: {heard!r}")
    desk.link.sendall(frame(TEXT, b"stren", is_last=False) + frame(PING, b"ping") + frame(0, b"gth 0x2"))
    report.note(desk.hear() == (PONG, b"ping") and desk.hear_reply() == ["ok 1", "STRONG"], "a message in fragments, with a ping between")
    for _ in range(50):
        desk.link.sendall(frame(TEXT, b"strength 0x2") + frame(TEXT, b"strength 0x9"))
    replies = [desk.hear_reply()[-1] for _ in range(100)]
    report.note(replies == ["STRONG", "no NoSuchObject"] * 50, "a hundred messages at once are answered in their order")
    for name, data, code in (
        ("a binary message", frame(BINARY, b"quit"), 1003),
        ("the head of a message of more than 1 MiB", frame(TEXT, b"x" * (1 << 20) + b"xx")[:14], 1009),
        ("an unmasked message", frame(TEXT, b"quit", masked=False), 1002),
        ("a message that is no UTF-8", frame(TEXT, b"\xff\xfe"), 1007),
    ):
        desk.link.sendall(data)
        closed = desk.closed_with()
        report.note(closed == code, f"{name} closes with {closed}")
        desk.leave()
        desk = take_again(web)
    desk.leave()


# A desk that is taken again.


def check_taken_again(web: Web, report: Report) -> None:
    desk, other = take_again(web), take_again(web)  # so that this one alone gets free
    replies = [desk.ask(line) for line in ("names on", "cut 0x1 e0", "mark", "private", "add 0x2")]
    wanted = [["ok 0"], ["ok 1", "event 0 fell 1 back 0"], ["ok 1", "mark 1"], ["ok 1", "private 1"], ["ok 1", "event 1 fell 0 back 1"]]
    report.note(replies == wanted, "a desk is edited, marked and made private")
    desk.leave()
    desk = take_again(web)
    report.note(desk.ask("strength 0x2") == ["ok 1", "STRONG"], "who takes it next is in its private part")
    report.note(desk.ask("into 0x2") == ["ok 1", "0x1 e0 strong cut ? -"], "with names")
    report.note(desk.ask("back") == ["ok 1", "back 1"], "which ends")
    report.note(desk.ask("fell 0") == ["ok 1", "0x2 ?"] and desk.ask("fell 1") == ["ok 0"], "and its marks are there")
    report.note(desk.ask("undo") == ["ok 1", "event 1 fell 0 back 1"], "its edit can be undone")
    for each in (desk, other):
        each.leave()


# Odd clients.


def answered_at_once(desk: Socket) -> bool:
    began = time.monotonic()
    return desk.ask("strength 0x2")[0] == "ok 1" and time.monotonic() - began < 1


def check_odd(web: Web, report: Report) -> None:
    desk = take_again(web)
    silent, half = web.connect(), web.connect()
    half.sendall(web.head()[:20])
    began = time.monotonic()
    report.note(answered_at_once(desk), "a desk is answered beside one that says nothing and one that sends half a head")
    other = take_again(web)
    report.note(web.ask(web.upgrade()).status == 503, "a third desk is refused with 503")
    other.link.sendall(frame(TEXT, b"strength 0x2")[:5])
    report.note(answered_at_once(desk), "beside half a frame")
    other.leave()
    other = take_again(web)
    report.note(other.ask("strength 0x2") == ["ok 1", "STRONG"], "whose desk is taken again")
    other.link.setblocking(False)
    with contextlib.suppress(BlockingIOError):
        while time.monotonic() < began + 8:
            other.link.send(frame(TEXT, b"events") * 1000)
    report.note(answered_at_once(desk), "beside one that never reads")
    other.leave()
    crowd = [web.connect() for _ in range(200)]
    report.note(answered_at_once(desk), "beside 200 connections at once")
    time.sleep(1)
    refused = [link for link in crowd if select.select([link], [], [], 0)[0]]
    statuses = {answer_of(to_end(link)).status for link in refused}
    most = MOST_CONNECTIONS
    report.note(statuses == {503} and len(crowd) - len(refused) <= most, f"of which all but {most} at most are answered 503")
    for link in (silent, half):
        with contextlib.suppress(OSError):
            link.settimeout(20)
            to_end(link)
    took = time.monotonic() - began
    report.note(took < 14, f"a head that doesn't come closes its connection, here after {took:.1f} seconds")
    for link in (*crowd, silent, half):
        link.close()
    report.note(answered_at_once(desk), "and the desk is answered after them")
    desk.leave()


def check_end(web: Web, report: Report) -> None:
    first, second = take_again(web), take_again(web)
    report.note(first.ask("quit") == ["ok 0"] and first.closed_with() == 1000, "a desk quits, and is closed with 1000")
    report.note(web.ask(web.upgrade()).status == 503, "it isn't given again")
    report.note(second.ask("cut 0x1 e0") == ["ok 1", "event 2 fell 1 back 0"], "the other goes on")
    _, *wanted = second.ask("events")
    silent = web.connect()
    report.note(second.ask("quit\n") == ["ok 0"], "and quits")
    log = web.log()
    silent.close()
    report.note(len(log) == 3 and log == wanted, "the log is printed, beside one that still says nothing" if log == wanted else f"the log is {log!r}, and not {wanted!r}")


def check(given: argparse.Namespace, report: Report) -> None:
    with tempfile.TemporaryDirectory() as room, Program(given.program, WAIT) as program:
        dump, page = Path(room, "two_arrays.hprof"), Path(room, "page.html")
        dump.write_bytes(two_arrays(Format()))
        page.write_bytes(PAGE)
        web = Web(program, str(dump), str(page))
        for part in (check_heads, check_messages, check_taken_again, check_odd, check_end):
            part(web, report)


if __name__ == "__main__":
    perform(words_of(__doc__, 300), check)
