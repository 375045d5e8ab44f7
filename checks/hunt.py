#!/usr/bin/env python3
"""Hunts for the planted objects and the planted leak in a dump of `tools/real_dump.sh`, by the commands of hdesk alone.

It checks that

- `classes` at each strength adds up to what `stat` prints of it;
- `members` lists as many objects of each group and strength as `classes` counts, ascending, each object once, and `head`
  shows the first of them;
- each planted object is found by `classes` and `members`, at its own strength and at no other;
- its chain holds, link by link: the root stands on the first object, each link stands in a slot of the object before,
  no object comes twice, and the weakest link is the object's strength;
- a cut of the one reference to the leaked session lets fall that session and what it alone holds, and nothing else,
  and an undo brings all of it back;
- `freed` and `moved` count what that cut let fall, and `top` has the lines of `classes`, most bytes first;
- `find` counts the objects of each class by strength, as `classes` does;
- with names on, the end of the session's chain names the fields and classes of Planted.java that hold it;
- `--names` begins a session so, in `run` and in `serve`.

It ends at the first check that doesn't hold.
"""
from __future__ import annotations

import argparse
import sys

sys.dont_write_bytecode = True  # the checkout stays as it is

from report import Report, perform, readable, words_of
from session import Program, Session, Wrong

STRENGTHS = ["STRONG", "SOFT", "WEAK", "FINAL", "PHANTOM", "UNREACHABLE"]
PLANTED = dict(zip(["PlantedStrong", "PlantedSoft", "PlantedWeak", "PlantedFinal", "PlantedPhantom", "PlantedLost"], STRENGTHS))


def ids(analyst: Session, line: str) -> list[str]:
    return [words[0] for words in analyst.rows(line)]


def group_of(analyst: Session, name: str, strength: str) -> str | None:
    """The group of the only class of a name that has objects of a strength, if there is one."""
    groups = [group for group, _, _, named in analyst.rows(f"classes {strength}") if named == name]
    if len(groups) > 1:
        raise Wrong(f"{len(groups)} classes are called {name}")
    return groups[0] if groups else None


def only_member(analyst: Session, name: str, strength: str) -> str:
    group = group_of(analyst, name, strength)
    members = ids(analyst, f"members {group} {strength}") if group else []
    if len(members) != 1:
        raise Wrong(f"{name} has {len(members)} objects at {strength}")
    return members[0]


def check_totals(analyst: Session, report: Report, stat: str) -> None:
    totals = [line.split() for line in stat.splitlines() if line.split()[0] in STRENGTHS]
    report.check([words[0] for words in totals] == STRENGTHS, "stat has a line for each strength")
    for strength, objects, size in totals:
        rows = analyst.rows(f"classes {strength}")
        sums = [sum(int(row[column]) for row in rows) for column in (1, 2)]
        report.check(sums == [int(objects), int(size)], f"classes {strength} adds up to {objects} objects of {size} bytes")


def check_chain(analyst: Session, report: Report, name: str, target: str, strength: str) -> None:
    lines = analyst.rows(f"chain {target}")
    if strength == "UNREACHABLE":
        report.check(not lines, f"{name} {target} has no chain")
        return
    word, number, kind, at = lines[0]
    holds = word == "root" and analyst.rows("roots")[int(number)] == [number, kind, at, "stands"]
    seen, kinds = [at], ["STRONG"]
    for slot, kind, to in lines[1:]:
        holds = holds and [slot, kind, to, "stands"] in analyst.rows(f"slots {at}")
        seen.append(to)
        kinds.append(kind.upper())
        at = to
    weakest = max(kinds, key=STRENGTHS.index)
    holds = holds and at == target and len(set(seen)) == len(seen) and weakest == strength
    holds = holds and "PHANTOM" not in kinds[:-1]
    report.check(holds, f"{name} {target} has a chain of strength {strength} with {len(lines) - 1} links")


def check_planted(analyst: Session, report: Report) -> None:
    for name, strength in PLANTED.items():
        others = [s for s in STRENGTHS if s != strength and group_of(analyst, name, s)]
        report.check(not others, f"{name} has objects at {strength} alone")
        target = only_member(analyst, name, strength)
        report.check(analyst.rows(f"strength {target}") == [[strength]], f"{name} {target} is {strength}")
        check_chain(analyst, report, name, target, strength)


def held_by(analyst: Session, session: str) -> list[str]:
    """The session, and what its fields and theirs refer to, but for classes."""
    held, ahead = {session}, [session]
    while ahead:
        for slot, _, to, mode in analyst.rows(f"slots {ahead.pop()}"):
            if slot != "class" and mode == "stands" and to not in held:
                held.add(to)
                ahead.append(to)
    return sorted(held, key=lambda text: int(text, 16))


def check_counts(analyst: Session, report: Report, fallen: int) -> None:
    total, *groups = analyst.rows("freed 0")
    sums = [str(sum(int(row[column]) for row in groups)) for column in (1, 2)]
    report.check(total == ["total", str(fallen), sums[1]] and sums[0] == str(fallen), f"freed adds up to {fallen} objects")
    report.check(["STRONG", "UNREACHABLE", *sums] in analyst.rows("moved 0"), "moved counts them as they fell")


def check_names(analyst: Session, report: Report) -> None:
    session = only_member(analyst, "Session", "STRONG")
    plain = analyst.rows(f"chain {session}")
    report.check(analyst.rows("names on") == [], "names are put on")
    named = analyst.rows(f"chain {session}")
    report.check([row[:len(short)] for row, short in zip(named, plain)] == plain, "lines with names begin as those without")
    places = [row[4] for row in named[-4:]]
    report.check(places[0] == "Listeners.byTopic" and places[2:] == ["java/util/ArrayList.elementData", "-"],
                 "the chain names the static, the list's field, and an element without a name")
    names = [row[3] for row in named[-3:]]
    report.check(names == ["java/util/ArrayList", "[Ljava/lang/Object;", "Session"], "it names the classes on the way")
    report.check([row[3] for row in analyst.rows(f"object {session}")] == ["Session"], "object names the session's class")
    report.check(analyst.rows("names off") == [] and analyst.rows(f"chain {session}") == plain, "names are put off again")


def check_named_sessions(program: Program, analyst: Session, report: Report, dump: str) -> None:
    """Sessions that begin with names, over standard input and over a connection."""
    session = only_member(analyst, "Session", "STRONG")
    analyst.rows("names on")
    named = analyst.rows(f"chain {session}")
    analyst.rows("names off")
    alone = program.run(dump, "--names")
    report.check(alone.rows(f"chain {session}") == named, "run --names begins with names")
    alone.quit()
    server = program.serve(dump, 1, "--names")
    client = server.connect()
    report.check(client.rows(f"chain {session}") == named, "serve --names begins with names")
    client.quit()
    report.check(server.log() == [], "its log is empty")


def check_top(analyst: Session, report: Report) -> None:
    top = analyst.rows("top STRONG")
    sizes = [(int(row[2]), int(row[1])) for row in top]
    report.check(sizes == sorted(sizes, reverse=True), "top lists most bytes first")
    report.check(sorted(top) == sorted(analyst.rows("classes STRONG")), "it has the lines of classes")
    report.check(analyst.rows("head 3 top STRONG") == top[:3], "head shows the first of them")


def check_members(analyst: Session, report: Report) -> None:
    """The objects of each group and strength: no two lists have one in common, so they are all that `classes` counts."""
    seen: set[str] = set()
    counted = 0
    holds = True
    for strength in STRENGTHS:
        for group, count, _, _ in analyst.rows(f"classes {strength}"):
            members = ids(analyst, f"members {group} {strength}")
            rising = [int(member, 16) for member in members]
            holds = holds and len(members) == int(count) and all(a < b for a, b in zip(rising, rising[1:]))
            holds = holds and ids(analyst, f"head 3 members {group} {strength}") == members[:3]
            seen.update(members)
            counted += int(count)
    report.check(holds, "members lists each group and strength as classes counts it, ascending, and head the first of them")
    report.check(len(seen) == counted, f"its {counted} objects come once")


def check_find(analyst: Session, report: Report, text: str) -> None:
    """The lines of `find` against those of `classes`; a class without objects has no line there."""
    counts: dict[str, list[str]] = {}
    for column, strength in enumerate(STRENGTHS):
        for group, count, _, name in analyst.rows(f"classes {strength}"):
            if text in name:
                counts.setdefault(group, ["0"] * 6 + [name])[column] = count
    found = {group: line for group, *line in analyst.rows(f"find {text}")}
    report.check(counts.items() <= found.items(), f"find {text} has the {len(counts)} classes with objects, counted by strength")
    others = [line for group, line in found.items() if group not in counts]
    report.check(all(line[:6] == ["0"] * 6 and text in line[6] for line in others), f"its {len(others)} others have none")


def check_leak(analyst: Session, report: Report) -> None:
    session = only_member(analyst, "Session", "STRONG")
    holders = analyst.rows(f"into {session}")
    report.check(len(holders) == 1 and holders[0][3] == "stands", f"one reference leads to the session {session}")
    source, slot = holders[0][:2]
    link = analyst.rows(f"chain {session}")[-1]
    report.check(link[0] == slot and link[2] == session, "its chain ends with that reference")
    held = held_by(analyst, session)
    done = analyst.rows(f"cut {source} {slot}")
    report.check(done == [["event", "0", "fell", str(len(held)), "back", "0"]], f"without it {len(held)} objects fall")
    report.check(ids(analyst, "fell 0") == held, "they are the session and what it alone holds")
    check_counts(analyst, report, len(held))
    done = analyst.rows("undo")
    report.check(done == [["event", "1", "fell", "0", "back", str(len(held))]], "an undo brings them back")
    report.check(ids(analyst, "fell 0") == [], "nothing has fallen then")


def hunt(given: argparse.Namespace, report: Report) -> None:
    with Program(given.program, given.seconds) as program:
        stat = program.stat(given.dump)
        analyst = program.run(given.dump)
        check_totals(analyst, report, stat)
        check_members(analyst, report)
        check_planted(analyst, report)
        check_leak(analyst, report)
        check_names(analyst, report)
        check_named_sessions(program, analyst, report, given.dump)
        check_top(analyst, report)
        for text in ("Planted", "java/util/", "[]"):
            check_find(analyst, report, text)
        analyst.quit()


if __name__ == "__main__":
    taken = words_of(__doc__, seconds=120)
    taken.add_argument("dump", metavar="DUMP", type=readable, help="a dump that tools/real_dump.sh made")
    perform(taken, hunt)
