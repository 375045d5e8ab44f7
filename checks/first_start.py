#!/usr/bin/env python3
"""Starts copies of the repository for the first time, and looks at what `./hdesk` does with the release.

A copy has `hdesk`, `tools/`, `release/` and the sources, and is given a PATH with neither `rt` nor Python. It has to answer
at once. A damaged release has to be refused in one line, a changed source has to be named, several first starts at once have to
answer, and so has a copy that can't be written.
"""
from __future__ import annotations

import argparse
import contextlib
import os
import shutil
import sys
import tempfile
import time
from pathlib import Path
from typing import Iterator

sys.dont_write_bytecode = True  # the checkout stays as it is

from dumps import Format
from report import Report, perform, words_of
from session import TOP, Ended, Program

# All that `hdesk` calls.
TOOLS = (
    "awk bash cat chmod cmp cp cut diff dirname env find gzip mkdir mktemp mv readlink rm sed sha256sum sort stat tac touch wc "
    "xargs"
).split()
LONGEST = 2.0  # seconds from the first start of a copy to its first reply
NOBODY = 65534
ANSWERED = Ended(0, "ok 1\nSTRONG\n", "")
STAT = (
    "objects 2\nroots 1\nedges 1\nunresolved 0\nrepeated 0 0 0\nopaque 0\n"
    "STRONG 2 4\nSOFT 0 0\nWEAK 0 0\nFINAL 0 0\nPHANTOM 0 0\nUNREACHABLE 0 0\n"
)


class Copy:
    """A copy of the repository that was never started."""

    def __init__(self, program: Program, room: Path) -> None:
        self._program, self.top, self._tools = program, room / "copy", room / "tools"
        self._temporary = room / "temporary"
        for folder in (self._tools, self._temporary):
            folder.mkdir()
        self._temporary.chmod(0o777)
        for tool in TOOLS:
            (self._tools / tool).symlink_to(shutil.which(tool) or tool)
        self.top.mkdir()
        for name in ("hdesk", "crates.txt", "HANDLES"):
            shutil.copy(TOP / name, self.top)
        shutil.copytree(TOP / "crates", self.top / "crates", copy_function=shutil.copy, ignore=shutil.ignore_patterns("out"))
        for name in ("tools", "release"):
            shutil.copytree(TOP / name, self.top / name, copy_function=shutil.copy)

    def forget(self) -> None:
        """Makes the next start a first one."""
        shutil.rmtree(self.top / ".hdesk", ignore_errors=True)

    def start(self, *words: str, text: str = "strength 0x2\n", without: str = "", **others: object) -> Ended:
        """Starts `hdesk`, without one of its tools if that is named."""
        tools = self._tools
        if without:
            tools = self._tools.with_name(f"without-{without}")
            shutil.copytree(self._tools, tools, symlinks=True, ignore=shutil.ignore_patterns(without))
        places = {"PATH": str(tools), "TMPDIR": str(self._temporary), "HOME": "/nowhere"}
        others["env"] = {**places, **others.get("env", {})}
        return self._program.finish([str(self.top / "hdesk"), *words], text, cwd="/", **others)

    @contextlib.contextmanager
    def changed(self, name: str, data: bytes | None) -> Iterator[None]:
        """The copy with other bytes in a file, or without it; it is as before afterwards, and not started."""
        path = self.top / name
        before = path.read_bytes()
        self.forget()
        if data is None:
            path.unlink()
        else:
            path.write_bytes(data)
        yield
        path.write_bytes(before)
        self.forget()

    def bytes_of(self, name: str) -> bytes:
        return (self.top / name).read_bytes()


def flipped(data: bytes, place: int) -> bytes:
    """Bytes of which one is another."""
    return data[:place] + bytes([data[place] ^ 1]) + data[place + 1 :]


def check_answers(copy: Copy, report: Report, room: Path) -> None:
    """The first start and the second, and a dump of one's own."""
    began = time.monotonic()
    first = copy.start()
    seconds = time.monotonic() - began
    report.check(first == ANSWERED, f"the first start answers: {first}")
    report.note(seconds <= LONGEST, f"it takes {seconds:.2f} s, at most {LONGEST:g}")
    dump, spelled = room / "own.hprof", Format()
    dump.write_bytes(spelled.dump(spelled.segment(spelled.root(1), spelled.array(1, [2]), spelled.array(2))))
    report.note(copy.start("stat", str(dump), text="").output == STAT, "stat of a dump right after is right")
    report.note(copy.start(without="sha256sum") == ANSWERED, "a later start sums no source")
    version = copy.start("--version", text="")
    told = f"hdesk {copy.bytes_of('release/manifest').decode().split()[1]}\n"
    report.note(version == Ended(0, told, ""), f"--version prints what release/manifest says: {version}")


def check_damage(copy: Copy, report: Report) -> None:
    """A release that is damaged or cut off."""
    packed, manifest = copy.bytes_of("release/hdesk.gz"), copy.bytes_of("release/manifest")
    listed = copy.bytes_of("release/sources.sha256")
    damages: list[tuple[str, str, bytes | None]] = [
        ("a flipped bit of the program", "release/hdesk.gz", flipped(packed, len(packed) // 2)),
        ("a program that is cut off", "release/hdesk.gz", packed[: len(packed) // 2]),
        ("an empty program", "release/hdesk.gz", b""),
        ("no program", "release/hdesk.gz", None),
        ("a manifest that is cut off", "release/manifest", manifest[: len(manifest) // 2]),
        ("no manifest", "release/manifest", None),
        ("a flipped bit of the list of sources", "release/sources.sha256", flipped(listed, 0)),
        ("no list of sources", "release/sources.sha256", None),
    ]
    for what, name, data in damages:
        with copy.changed(name, data):
            ended = copy.start()
            is_refused = ended.status == 1 and not ended.output and ended.faults.startswith("hdesk: the release is damaged")
            report.note(is_refused and ended.faults.count("\n") == 1, f"{what}: {ended.faults.strip()}")


def check_sources(copy: Copy, report: Report) -> None:
    """Sources that aren't the release's: there is no `rt` here, so that is said, with the source."""
    source, added = "crates/hd_terms/src/lib.rt", copy.top / "crates/hd_terms/src/added.rt"
    with copy.changed(source, flipped(copy.bytes_of(source), 10)):
        ended = copy.start()
        is_named = ended.status == 1 and not ended.output and f"{source} differs" in ended.faults
        report.note(is_named, f"a changed source: {ended.faults.strip()}")
    added.write_text("// Nothing.\n")
    ended = copy.start()
    report.note(ended.status == 1 and "added.rt differs" in ended.faults, f"a new source: {ended.faults.strip()}")
    added.unlink()
    report.note(copy.start() == ANSWERED, "without it the release runs again")
    ended = copy.start(env={"HDESK_BUILD": "1"})
    report.note(ended.status == 1 and "HDESK_BUILD asks for it" in ended.faults, f"HDESK_BUILD=1: {ended.faults.strip()}")


def check_at_once(program: Program, copy: Copy, report: Report) -> None:
    """Several first starts at once."""
    copy.forget()
    ended = program.side_by_side(lambda _: copy.start(), range(4))
    report.note(all(each == ANSWERED for each in ended), "four first starts at once answer")


def is_reached(path: Path) -> bool:
    """Whether every user may go to a folder."""
    return all(folder.stat().st_mode & 0o001 for folder in (path, *path.parents))


def check_unwritable(copy: Copy, report: Report) -> None:
    """A copy that can't be written, by a user who owns none of it where this one may write everywhere."""
    if os.getuid() == 0 and not is_reached(copy.top):
        print(f"not looked at: a copy that can't be written, since no other user reaches {copy.top.parent}")
        return
    copy.forget()
    copy.top.chmod(0o555)
    others: dict[str, object] = {"preexec_fn": lambda: os.setuid(NOBODY)} if os.getuid() == 0 else {}
    for which in ("first", "second"):
        ended = copy.start(**others)
        report.note(ended == ANSWERED, f"the {which} start of a copy that can't be written answers: {ended}")
    report.note(not (copy.top / ".hdesk").exists(), "nothing is written into it")
    copy.top.chmod(0o755)


def start_copies(given: argparse.Namespace, report: Report) -> None:
    with Program(given.program, given.seconds) as program, tempfile.TemporaryDirectory() as room:
        os.chmod(room, 0o755)
        copy = Copy(program, Path(room))
        check_answers(copy, report, Path(room))
        check_damage(copy, report)
        check_sources(copy, report)
        check_at_once(program, copy, report)
        check_unwritable(copy, report)


if __name__ == "__main__":
    perform(words_of(__doc__, seconds=120), start_copies)
