#!/usr/bin/env python3
"""Random edits on random dumps: each answer of hdesk is compared with one computed from scratch.

A dump has arrays that refer to each other at random, with cycles, doubly linked lists and a dense part, reference objects of
all kinds, and instances of a class and of one below it, with fields that are null or absent in some; IDs of 4 or 8 bytes, and
roots of all kinds. Edits of all kinds and undos follow. After each, what the
event made unreachable and brought back, the strength of each object, and the totals of groups at each strength have to be
those of the definition. The definition is computed here, by paths and by nothing else. The script ends at the first answer
that isn't right, and keeps the dump and the lines.
"""
from __future__ import annotations

import argparse
import random
import sys
import tempfile
from pathlib import Path
from typing import Dict, Iterator, Tuple, Union

sys.dont_write_bytecode = True  # the checkout stays as it is

from dumps import INT, OBJECT, REFERENCE_KINDS, ROOTS, Format, ReferenceClasses
from report import Report, perform, positive, words_of
from session import Program, Wrong, native

NAMES = ["UNREACHABLE", "PHANTOM", "FINAL", "WEAK", "SOFT", "STRONG"]
RANK = {"soft": 4, "weak": 3, "final": 2, "phantom": 1, "strong": 5}
MODES = ["direct", "closure"]
ABOVE, BELOW = 0x31, 0x32  # the classes with fields: an object, an int and an object; one object more
FIELDS = {ABOVE: ["f0", "f2"], BELOW: ["f0", "f1", "f3"]}  # those that are objects, a class's own first

Edit = Tuple[Union[str, int], ...]  # the edit's name and its words
Live = Dict[int, Edit]  # the live edits by their events


class Heap:
    """A heap: roots, and for each object its slots."""

    def __init__(self, draw: random.Random) -> None:
        self.spelled = Format(draw.choice([4, 8]), draw.choice(["1.0.1", "1.0.2"]))
        self.classes = ReferenceClasses(self.spelled, 0x11, 0x101)
        self.arrays = [0x1000 + i for i in range(draw.randint(3, 24))]
        self.references = {0x2000 + i: draw.choice(REFERENCE_KINDS) for i in range(draw.randint(0, 8))}
        self.instances = {0x3000 + i: draw.choice([ABOVE, BELOW]) for i in range(draw.randint(0, 8))}
        everything = self.arrays + list(self.references) + list(self.instances)
        self.elements = {a: [draw.choice(everything) for _ in range(draw.choice([0, 1, 1, 2, 2, 3]))] for a in self.arrays}
        self.tangle(draw)
        self.referents = {r: draw.choice(everything) for r in self.references}
        self.values = {o: [draw.choice([*everything, 0, 0x9999]) for _ in FIELDS[c]] for o, c in self.instances.items()}
        self.roots = [(draw.choice(everything), draw.choice(list(ROOTS))) for _ in range(draw.randint(1, 3))]
        self.objects = list(self.classes.names) + [ABOVE, BELOW] + everything

    def tangle(self, draw: random.Random) -> None:
        """Adds doubly linked lists, a dense part, nulls and an ID that no object has."""
        for a, b in zip(self.arrays, self.arrays[1:]):
            if draw.random() < 0.3:
                self.elements[a].append(b)
                self.elements[b].append(a)
        if draw.random() < 0.3:
            dense = draw.sample(self.arrays, min(5, len(self.arrays)))
            for a in dense:
                self.elements[a] += dense
        for held in self.elements.values():
            if draw.random() < 0.33:
                held.insert(draw.randint(0, len(held)), draw.choice([0, 0x9999]))

    def bytes(self) -> bytes:
        return self.spelled.dump(*self.classes.records(), self.spelled.segment(*self.subs()), self.spelled.end())

    def subs(self) -> Iterator[bytes]:
        yield from self.classes.class_dumps()
        yield self.spelled.class_dump(ABOVE, 0, [(0x201, OBJECT), (0x202, INT), (0x203, OBJECT)])
        yield self.spelled.class_dump(BELOW, ABOVE, [(0x204, OBJECT)])
        for target, kind in self.roots:
            yield self.spelled.root(target, kind)
        for a in self.arrays:
            yield self.spelled.array(a, self.elements[a])
        for r, kind in self.references.items():
            yield self.classes.instance(r, self.classes.of_kind[kind], self.referents[r])
        for o, class_id in self.instances.items():
            *first, last = self.values[o]
            yield self.spelled.instance(o, class_id, self.spelled.ids(*first) + bytes(4) + self.spelled.ids(last))

    def class_of(self, o: int) -> int:
        """The ID of the class of an instance."""
        return self.instances[o] if o in self.instances else self.classes.of_kind[self.references[o]]

    def fields(self) -> list[tuple[int, str]]:
        """The fields of all classes that have an instance, each with the ID of the class."""
        of_references = {(self.class_of(r), "f0") for r in self.references}
        return sorted(of_references | {(c, slot) for c in self.instances.values() for slot in FIELDS[c]})

    def group(self, o: int) -> tuple[int, str, str]:
        """The group of an object: where it stands among groups, its line's first word, and its name."""
        if o in self.elements:
            return 0, "0x0", "?"
        if o in self.references or o in self.instances:
            class_id = self.class_of(o)
            return class_id, f"{class_id:#x}", self.classes.names.get(class_id, "?")
        return 1 << 65, "c", "classes"

    def size(self, o: int) -> int:
        """The recorded bytes of an object."""
        if o in self.instances:
            return self.spelled.id_size * len(self.values[o]) + 4
        return self.spelled.id_size * (len(self.elements[o]) if o in self.elements else int(o in self.references))

    def edges(self) -> Iterator[tuple[int, str, str, int]]:
        """All edges: source, slot, kind, target."""
        known = set(self.objects)
        for class_id in self.classes.of_kind.values():
            yield class_id, "super", "strong", self.classes.reference
        yield BELOW, "super", "strong", ABOVE
        for a in self.arrays:
            for i, target in enumerate(self.elements[a]):
                if target in known:
                    yield a, f"e{i}", "strong", target
        for r, kind in self.references.items():
            yield r, "f0", kind, self.referents[r]
            yield r, "class", "strong", self.classes.of_kind[kind]
        for o, class_id in self.instances.items():
            yield from ((o, slot, "strong", value) for slot, value in zip(FIELDS[class_id], self.values[o]) if value in known)
            yield o, "class", "strong", class_id


def strengths(heap: Heap, mode: str, live: Live) -> dict[int, int]:
    """The rank of each object under live edits, by the best of all root paths: the widest are followed first."""
    edits = set(live.values())
    dropped = {edit[1] for edit in edits if edit[0] == "drop"}
    out: dict[int, list[tuple[int, int]]] = {}
    for source, slot, kind, target in heap.edges():
        is_cleared = slot == "f0" and (("clear", source) in edits or ("clearall", kind) in edits)
        is_cut = ("cut", source, slot) in edits or (slot[0] == "f" and ("cutall", heap.class_of(source), slot) in edits)
        if not is_cleared and not is_cut:
            out.setdefault(source, []).append((RANK[kind], target))
    roots = dict(enumerate(target for target, _ in heap.roots))
    roots.update({len(heap.roots) + event: edit[1] for event, edit in live.items() if edit[0] == "add"})
    least = 2 if mode == "direct" else 1
    rank = {o: 0 for o in heap.objects}
    todo = [(5, o) for number, o in roots.items() if number not in dropped]
    while todo:
        best, at = max(todo)
        todo.remove((best, at))
        if best <= rank[at]:
            continue
        rank[at] = best
        if best >= least:
            todo += [(min(best, kind), to) for kind, to in out.get(at, []) if min(best, kind) > rank[to]]
    return rank


def random_edit(draw: random.Random, heap: Heap, live: Live) -> Edit:
    """An edit that isn't refused, or an undo of a live event."""
    if live and draw.random() < 0.35:
        return "undo", draw.choice(list(live))
    what = draw.random()
    edges = [(source, slot) for source, slot, _, _ in heap.edges() if slot[0] in "ef"]
    if what < 0.6 and edges:
        return ("cut", *draw.choice(edges))
    if what < 0.7 and heap.references:
        return "clear", draw.choice(list(heap.references))
    if what < 0.75:
        return "clearall", draw.choice(REFERENCE_KINDS)
    if what < 0.82 and heap.fields():
        return ("cutall", *draw.choice(heap.fields()))
    if what < 0.9:
        count = len(heap.roots)
        return "drop", draw.choice([*range(count), *(count + event for event, edit in live.items() if edit[0] == "add")])
    return "add", draw.choice(heap.objects)


def line_of(edit: Edit) -> str:
    """An edit as a line spells it: IDs, and no other numbers, are hexadecimal."""
    is_id = edit[0] in ("cut", "cutall", "clear", "add")
    return " ".join(f"{word:#x}" if is_id and isinstance(word, int) else str(word) for word in edit)


def totals(heap: Heap, rank: dict[int, int], strength: int) -> list[str]:
    """The lines of the groups that have objects of a rank."""
    rows: dict[tuple[int, str, str], tuple[int, int]] = {}
    for o in heap.objects:
        if rank[o] == strength:
            count, size = rows.get(heap.group(o), (0, 0))
            rows[heap.group(o)] = count + 1, size + heap.size(o)
    lines = [f"{word} {rows[key][0]} {rows[key][1]} {name}" for key in sorted(rows) for _, word, name in [key]]
    return [f"ok {len(lines)}"] + lines


def asked(draw: random.Random, heap: Heap, mode: str, edits: int) -> tuple[list[str], list[str]]:
    """Lines of random edits with questions behind each, and the lines that have to be answered."""
    lines: list[str] = []
    wanted: list[str] = []
    live: Live = {}
    before = strengths(heap, mode, live)
    for event in range(edits):
        edit = random_edit(draw, heap, live)
        if edit[0] == "undo":
            del live[int(edit[1])]
        else:
            live[event] = edit
        after = strengths(heap, mode, live)
        fell = sum(1 for o in heap.objects if before[o] and not after[o])
        back = sum(1 for o in heap.objects if after[o] and not before[o])
        lines += [line_of(edit)] + [f"strength {o:#x}" for o in heap.objects] + [f"classes {name}" for name in NAMES]
        wanted += ["ok 1", f"event {event} fell {fell} back {back}"]
        for o in heap.objects:
            wanted += ["ok 1", NAMES[after[o]]]
        for rank in range(len(NAMES)):
            wanted += totals(heap, after, rank)
        before = after
    return lines, wanted


class Differs(Wrong):
    """An answer that isn't right, with the dump and the lines to it."""

    def __init__(self, text: str, dump: bytes, lines: str) -> None:
        super().__init__(text)
        self.dump, self.lines = dump, lines

    def keep(self) -> str:
        """Keeps the dump and the lines in a folder."""
        folder = Path(tempfile.mkdtemp(prefix="random_edits-"))
        (folder / "dump.hprof").write_bytes(self.dump)
        (folder / "lines").write_text(self.lines)
        return str(folder)


def check_dump(program: Program, room: str, draw: random.Random, mode: str, edits: int) -> int:
    """Compares all replies over one dump. How many lines there were."""
    heap = Heap(draw)
    lines, wanted = asked(draw, heap, mode, edits)
    text = "\n".join(lines) + "\n"
    with tempfile.NamedTemporaryFile(dir=room) as file:
        file.write(heap.bytes())
        file.flush()
        ended = program.finish([program.path, "run", file.name, "--phantom", mode], text)
    told = ended.output.splitlines()
    if told != wanted:
        place = next((i for i, (a, b) in enumerate(zip(told, wanted)) if a != b), min(len(told), len(wanted)))
        at = [repr(these[place]) if place < len(these) else "missing" for these in (told, wanted)]
        raise Differs(f"reply line {place} is {at[0]} and not {at[1]}", heap.bytes(), text)
    if ended.status != 0 or ended.faults:
        raise Differs(f"status {ended.status}, {ended.faults!r}", heap.bytes(), text)
    return len(lines)


def check_dumps(given: argparse.Namespace, report: Report) -> None:
    path = native(given.program, given.seconds)
    with Program(path, given.seconds) as program, tempfile.TemporaryDirectory() as room:
        def check(number: int) -> int:
            draw = random.Random(f"{given.seed} {number}")
            return check_dump(program, room, draw, MODES[number % 2], given.edits)

        for first, mode in enumerate(MODES):
            try:
                counts = program.side_by_side(check, range(first, given.dumps, 2))
            except Differs as wrong:
                raise Wrong(f"{wrong}, in mode {mode}; {wrong.keep()} has the dump and the lines") from None
            if counts:
                report.note(True, f"{sum(counts)} lines on {len(counts)} dumps in mode {mode}, {given.edits} edits each")


if __name__ == "__main__":
    taken = words_of(__doc__, seconds=180)
    taken.add_argument("--dumps", metavar="N", type=positive, default=200, help="how many dumps; 200 if not given")
    taken.add_argument("--edits", metavar="N", type=positive, default=30, help="how many edits each; 30 if not given")
    taken.add_argument("--seed", metavar="N", default="1", help="another number draws other dumps and edits")
    perform(taken, check_dumps)
