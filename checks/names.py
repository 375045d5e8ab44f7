#!/usr/bin/env python3
"""Compares the names that hdesk shows with those that a reader of its own finds in a dump.

The dump is the one given, or else that of a `jshell`, a program that nobody here wrote, which is started, dumped and ended. For
1,000 objects and classes drawn at random, each NAME and PLACE in the lines of `chain`, `slots`, `into` and `object` has to be the
one that the reader finds: by the first UTF8 record of a name, the first LOAD CLASS record of a class, and the class of the
chain that declares the field.
"""
from __future__ import annotations

import argparse
import random
import select
import struct
import subprocess
import sys
import tempfile
from pathlib import Path
from typing import Callable, Iterator, List, NamedTuple

sys.dont_write_bytecode = True  # the checkout stays as it is

from report import Report, perform, positive, readable, words_of
from session import Program, Session, Wrong

OBJECTS = 1000
SHOWN = 200  # lines of `slots` and `into` that are compared for one object
QUIET = "-XX:-UsePerfData"
SNIPPETS = """import java.util.*;
var held = new HashMap<String, List<Integer>>();
for (int i = 0; i < 1000; i++) held.put("key " + i, List.of(i, i + 1));
System.out.println("ready");
"""

SIZES = {4: 1, 5: 2, 6: 4, 7: 8, 8: 1, 9: 2, 10: 4, 11: 8}
ARRAYS = dict(zip(range(4, 12), ["boolean[]", "char[]", "float[]", "double[]", "byte[]", "short[]", "int[]", "long[]"]))
OTHER_BYTES = {0xFF: 0, 1: None, 2: 8, 3: 8, 4: 4, 5: 0, 6: 4, 7: 0, 8: 8}  # of a root, behind its ID


class ClassDump(NamedTuple):
    """What names need of a class: its super class, and the names of its statics and fields."""

    above: int
    statics: List[int]
    fields: List[int]


class Cursor:
    """A place in the bytes of a dump."""

    def __init__(self, data: bytes, at: int, size: int) -> None:
        self.data, self.at, self.size = data, at, size

    def number(self, size: int) -> int:
        value = int.from_bytes(self.data[self.at:self.at + size], "big")
        self.at += size
        return value

    def id(self) -> int:
        return self.number(self.size)

    def skip(self, size: int) -> None:
        self.at += size

    def skip_value(self) -> None:
        self.skip(SIZES.get(self.number(1), self.size))


class Reader:
    """The names of a dump."""

    def __init__(self, path: str) -> None:
        data = Path(path).read_bytes()
        begin = data.index(b"\0") + 1
        self.size = struct.unpack_from(">I", data, begin)[0]
        self.texts: dict[int, bytes] = {}
        self.class_names: dict[int, int] = {}
        self.classes: dict[int, ClassDump] = {}
        self.arrays: dict[int, int] = {}  # arrays of basic types, with their types
        self.class_of: dict[int, int] = {}  # instances and arrays of objects, with their classes
        self._read(data, begin + 12)

    def _read(self, data: bytes, at: int) -> None:
        while at < len(data):
            tag, length = data[at], struct.unpack_from(">I", data, at + 5)[0]
            cursor, at = Cursor(data, at + 9, self.size), at + 9 + length
            if tag == 1:
                self.texts.setdefault(cursor.id(), data[cursor.at:at])
            elif tag == 2:
                cursor.skip(4)
                loaded = cursor.id()
                cursor.skip(4)
                self.class_names.setdefault(loaded, cursor.id())
            elif tag in (0x0C, 0x1C):
                while cursor.at < at:
                    self._sub_record(cursor)

    def _sub_record(self, cursor: Cursor) -> None:
        tag = cursor.number(1)
        made = cursor.id()
        if tag == 0x20:
            read = self._class_dump(cursor)
            if self._is_new(made):
                self.classes[made] = read
        elif tag == 0x21:
            cursor.skip(4)
            of = cursor.id()
            cursor.skip(cursor.number(4))
            if self._is_new(made):
                self.class_of[made] = of
        elif tag == 0x22:
            cursor.skip(4)
            count = cursor.number(4)
            of = cursor.id()
            cursor.skip(count * self.size)
            if self._is_new(made):
                self.class_of[made] = of
        elif tag == 0x23:
            cursor.skip(4)
            count, element = cursor.number(4), cursor.number(1)
            cursor.skip(count * SIZES[element])
            if self._is_new(made):
                self.arrays[made] = element
        else:
            cursor.skip(self.size if tag == 1 else OTHER_BYTES[tag])

    def _class_dump(self, cursor: Cursor) -> ClassDump:
        cursor.skip(4)
        above = cursor.id()
        cursor.skip(5 * self.size + 4)
        for _ in range(cursor.number(2)):
            cursor.skip(2)
            cursor.skip_value()
        statics, fields = [], []
        for _ in range(cursor.number(2)):
            statics.append(cursor.id())
            cursor.skip_value()
        for _ in range(cursor.number(2)):
            fields.append(cursor.id())
            cursor.skip(1)
        return ClassDump(above, statics, fields)

    def _is_new(self, made: int) -> bool:
        return made not in self.class_of and made not in self.classes and made not in self.arrays

    def printed(self, name: int | None) -> str:
        text = self.texts.get(name, b"") if name is not None else b""
        return "".join(chr(b) if 0x21 <= b <= 0x7E and b != 0x5C else f"\\x{b:02x}" for b in text) or "?"

    def class_name(self, of: int) -> str:
        return self.printed(self.class_names.get(of))

    def name(self, of: int) -> str:
        """The name of the object of an ID."""
        if of in self.classes:
            return f"{self.class_name(of)}.class"
        if of in self.arrays:
            return ARRAYS[self.arrays[of]]
        return self.class_name(self.class_of[of]) if of in self.class_of else "-"

    def place(self, source: int, slot: str) -> str:
        """The place of a slot in the object of an ID."""
        letter, number = slot[0], slot[1:]
        if letter not in "fs" or not number.isdigit():
            return "-"
        if letter == "s":
            return f"{self.class_name(source)}.{self.printed(self.classes[source].statics[int(number)])}"
        left, at = int(number), self.class_of[source]
        while left >= len(self.classes[at].fields):
            left -= len(self.classes[at].fields)
            at = self.classes[at].above
        return f"{self.class_name(at)}.{self.printed(self.classes[at].fields[left])}"


def chain_columns(reader: Reader, target: int, rows: list[list[str]]) -> Iterator[tuple[list[str], list[str]]]:
    """The further columns of the lines of a chain, and those that are right."""
    source = 0
    for row in rows:
        if row[0] == "root":
            source = int(row[3], 16)
            yield row[4:], [reader.name(source)]
        else:
            to = int(row[2], 16)
            yield row[3:], [reader.name(to), reader.place(source, row[0])]
            source = to


def slot_columns(reader: Reader, target: int, rows: list[list[str]]) -> Iterator[tuple[list[str], list[str]]]:
    for row in rows:
        yield row[4:], [reader.name(int(row[2], 16)), reader.place(target, row[0])]


def into_columns(reader: Reader, target: int, rows: list[list[str]]) -> Iterator[tuple[list[str], list[str]]]:
    for row in rows:
        source = int(row[0], 16)
        yield row[4:], [reader.name(source), reader.place(source, row[1])]


def object_columns(reader: Reader, target: int, rows: list[list[str]]) -> Iterator[tuple[list[str], list[str]]]:
    for row in rows:
        yield row[3:], [reader.name(target)]


Columns = Callable[[Reader, int, List[List[str]]], Iterator["tuple[list[str], list[str]]"]]
QUERIES: dict[str, Columns] = {
    "chain": chain_columns,
    f"head {SHOWN} slots": slot_columns,
    f"head {SHOWN} into": into_columns,
    "object": object_columns,
}


def check_query(analyst: Session, report: Report, reader: Reader, query: str, drawn: list[int]) -> None:
    lines = places = 0
    for target in drawn:
        for shown, right in QUERIES[query](reader, target, analyst.rows(f"{query} {target:#x}")):
            if shown != right:
                raise Wrong(f"{query} {target:#x} shows {' '.join(shown)} instead of {' '.join(right)}")
            lines += 1
            places += right[-1] != "-" and len(right) == 2
    report.check(lines > 0, f"{query}: {lines} lines of {len(drawn)} objects are right, {places} of them with a place")


def dump_of_jshell(room: str) -> str:
    """Dumps a jshell that has run a few lines."""
    dump = str(Path(room) / "jshell.hprof")
    words = ["jshell", f"-J{QUIET}", f"-J-Djava.util.prefs.userRoot={room}", "-s", "-"]
    with subprocess.Popen(words, stdin=subprocess.PIPE, stdout=subprocess.PIPE, stderr=subprocess.DEVNULL) as shell:
        try:
            shell.stdin.write(SNIPPETS.encode())
            shell.stdin.flush()
            if not select.select([shell.stdout], [], [], 60)[0] or shell.stdout.readline() != b"ready\n":
                raise Wrong("jshell did not get ready")
            words = ["jcmd", f"-J{QUIET}", str(shell.pid), "GC.heap_dump", "-all", dump]
            done = subprocess.run(words, stdout=subprocess.PIPE, stderr=subprocess.STDOUT, timeout=60, check=False)
            if done.returncode != 0 or not Path(dump).is_file():
                raise Wrong(f"jshell was not dumped: {done.stdout.decode().strip()}")
        finally:
            shell.kill()
    return dump


def compare(given: argparse.Namespace, report: Report) -> None:
    with tempfile.TemporaryDirectory() as room, Program(given.program, given.seconds) as program:
        dump = given.dump or dump_of_jshell(room)
        reader = Reader(dump)
        draw = random.Random(given.seed)
        classes, others = sorted(reader.classes), sorted([*reader.class_of, *reader.arrays])
        drawn = draw.sample(others, min(OBJECTS * 3 // 4, len(others))) + draw.sample(classes, min(OBJECTS // 4, len(classes)))
        analyst = program.run(dump)
        analyst.rows("names on")
        for query in QUERIES:
            check_query(analyst, report, reader, query, drawn)
        analyst.quit()


if __name__ == "__main__":
    taken = words_of(__doc__, seconds=240)
    taken.add_argument("--seed", metavar="N", type=positive, default=1, help="what objects are drawn by; 1 if not given")
    taken.add_argument("dump", metavar="DUMP", nargs="?", type=readable, help="a dump; that of a jshell if not given")
    perform(taken, compare)
