"""Writes heap dumps in the format HPROF, for the scripts of this folder.

A `Format` spells the records and the sub-records of a dump, as bytes; a dump is its header and records, one after the
other. `ReferenceClasses` has the classes of `java.lang.ref`.
"""
from __future__ import annotations

import struct
from typing import Iterator, Sequence

OBJECT, INT, BYTE = 2, 10, 8  # types of values

REFERENCE_KINDS = ("soft", "weak", "final", "phantom")

# The kinds of roots: the tag, and how many bytes of numbers and how many further IDs follow the ID.
ROOTS = {
    "unknown": (0xFF, 0, 0), "jni-global": (0x01, 0, 1), "jni-local": (0x02, 8, 0), "java-frame": (0x03, 8, 0),
    "native-stack": (0x04, 4, 0), "sticky-class": (0x05, 0, 0), "thread-block": (0x06, 4, 0),
    "monitor-used": (0x07, 0, 0), "thread": (0x08, 8, 0),
}


def record(tag: int, body: bytes) -> bytes:
    return struct.pack(">BII", tag, 0, len(body)) + body


class Format:
    """How the parts of a dump are spelled: with IDs of 4 or 8 bytes, and the version 1.0.1 or 1.0.2 in the header."""

    def __init__(self, id_size: int = 4, version: str = "1.0.2") -> None:
        self.id_size, self.version = id_size, version
        self.letter = {4: "I", 8: "Q"}[id_size]

    def ids(self, *ids: int) -> bytes:
        return struct.pack(f">{len(ids)}{self.letter}", *ids)

    def magic(self) -> bytes:
        return f"JAVA PROFILE {self.version}\0".encode()

    def header(self) -> bytes:
        return self.magic() + struct.pack(">IQ", self.id_size, 0)

    def dump(self, *records: bytes) -> bytes:
        return self.header() + b"".join(records)

    # Records.

    def text(self, text_id: int, text: str) -> bytes:
        return record(0x01, self.ids(text_id) + text.encode())

    def load_class(self, serial: int, class_id: int, text_id: int) -> bytes:
        return record(0x02, struct.pack(f">I{self.letter}I{self.letter}", serial, class_id, 0, text_id))

    def segment(self, *subs: bytes) -> bytes:
        return record(0x1C, b"".join(subs))

    def end(self) -> bytes:
        """The record that says that all segments have come."""
        return record(0x2C, b"")

    # Sub-records. The heads of objects stand alone too, so that a count can be wrong.

    def root(self, target: int, kind: str = "unknown") -> bytes:
        tag, numbers, ids = ROOTS[kind]
        return struct.pack(f">B{self.letter}", tag, target) + bytes(numbers + ids * self.id_size)

    def class_dump(self, class_id: int, super_class: int = 0, fields: Sequence[tuple[int, int]] = ()) -> bytes:
        """A class without constants and statics; a field is the ID of its name's text and its type."""
        counts = struct.pack(">IHHH", 0, 0, 0, len(fields))
        head = struct.pack(f">B{self.letter}I", 0x20, class_id, 0) + self.ids(super_class, 0, 0, 0, 0, 0) + counts
        return head + b"".join(struct.pack(f">{self.letter}B", name, kind) for name, kind in fields)

    def instance_head(self, object_id: int, class_id: int, length: int) -> bytes:
        return struct.pack(f">B{self.letter}I{self.letter}I", 0x21, object_id, 0, class_id, length)

    def instance(self, object_id: int, class_id: int, values: bytes = b"") -> bytes:
        return self.instance_head(object_id, class_id, len(values)) + values

    def array_head(self, object_id: int, count: int, class_id: int = 0) -> bytes:
        return struct.pack(f">B{self.letter}II{self.letter}", 0x22, object_id, 0, count, class_id)

    def array(self, object_id: int, elements: Sequence[int] = (), class_id: int = 0) -> bytes:
        return self.array_head(object_id, len(elements), class_id) + self.ids(*elements)

    def primitive_head(self, object_id: int, count: int, kind: int) -> bytes:
        return struct.pack(f">B{self.letter}IIB", 0x23, object_id, 0, count, kind)

    def byte_array(self, object_id: int, values: bytes = b"") -> bytes:
        return self.primitive_head(object_id, len(values), BYTE) + values


class ReferenceClasses:
    """`java.lang.ref.Reference` with its field, and below it a class for each kind of references.

    The five classes have IDs from `first_class` on, and the six texts from `first_text` on.
    """

    def __init__(self, spelled: Format, first_class: int, first_text: int) -> None:
        self.spelled, self.first_class, self.first_text = spelled, first_class, first_text
        self.reference = first_class
        self.of_kind = {kind: first_class + 1 + place for place, kind in enumerate(REFERENCE_KINDS)}
        names = ["java/lang/ref/Reference"] + [f"java/lang/ref/{kind.title()}Reference" for kind in REFERENCE_KINDS]
        self.names = {first_class + place: name for place, name in enumerate(names)}

    def records(self) -> Iterator[bytes]:
        """The texts and the loaded classes."""
        yield self.spelled.text(self.first_text, "referent")
        for place, (class_id, name) in enumerate(self.names.items(), start=1):
            yield self.spelled.text(self.first_text + place, name)
            yield self.spelled.load_class(place, class_id, self.first_text + place)

    def class_dumps(self) -> Iterator[bytes]:
        """The sub-records of the classes."""
        yield self.spelled.class_dump(self.reference, 0, [(self.first_text, OBJECT)])
        for class_id in self.of_kind.values():
            yield self.spelled.class_dump(class_id, self.reference)

    def instance(self, object_id: int, class_id: int, referent: int) -> bytes:
        """An instance of one of these classes, or of a class below them without fields of its own."""
        return self.spelled.instance(object_id, class_id, self.spelled.ids(referent))


def two_arrays(spelled: Format) -> bytes:
    """0x1 holds 0x2, null and an ID that no object has; 0x2 is empty. A root is on 0x1."""
    return spelled.dump(spelled.segment(spelled.root(1), spelled.array(1, [2, 0, 9]), spelled.array(2)))
