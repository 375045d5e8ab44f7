#!/usr/bin/env python3
"""Draws the table of `bench/opening.py`: seconds to open, and the peak of memory divided by the file's size, by that size.

    bench/draw.py [TABLE [PICTURE]]

TABLE is bench/opening.csv if it isn't given, and PICTURE docs/performance.svg. Both axes of the upper panel and the lower axis of
both are logarithmic. Colours follow whether the reader's screen is light or dark.
"""
from __future__ import annotations

import csv
import math
import sys
from pathlib import Path
from typing import Iterable, NamedTuple

TOP = Path(__file__).resolve().parent.parent
WIDTH, LEFT, RIGHT = 900, 70, 870
TIMES, PEAKS = (64, 384), (424, 584)  # where the panels begin and end, from the top
LIGHT = {"paper": "#ffffff", "ink": "#24292f", "grid": "#d0d7de",
         "read": "#8c959f", "walk": "#57606a", "plain": "#1a7f37", "stat": "#0969da", "run": "#bc4c00"}
DARK = {"paper": "#0d1117", "ink": "#e6edf3", "grid": "#30363d",
        "read": "#6e7681", "walk": "#a8b1bb", "plain": "#3fb950", "stat": "#58a6ff", "run": "#f0883e"}


class Series(NamedTuple):
    """A program with its number of threads, and how it is drawn."""

    program: str
    threads: str
    name: str
    shape: str


SERIES = [
    Series("read", "1", "reading the file", "M-4-4H4V4H-4Z"),
    Series("walk", "1", "reading and walking", "M0-5L5 0L0 5L-5 0Z"),
    Series("plain", "4", "plain program, 4 threads", "M0-5L5 4H-5Z"),
    Series("stat", "4", "hdesk stat, 4 workers", "M-4.5 0a4.5 4.5 0 1 0 9 0a4.5 4.5 0 1 0-9 0Z"),
    Series("run", "4", "hdesk run to its first reply", "M0 5L5-4H-5Z"),
]


class Scale(NamedTuple):
    """Turns values between two bounds into places between two others."""

    low: float
    high: float
    start: float
    end: float
    is_log: bool = True

    def __call__(self, value: float) -> float:
        low, high, at = (math.log(x) if self.is_log else x for x in (self.low, self.high, value))
        return self.start + (self.end - self.start) * (at - low) / (high - low)


def style() -> str:
    """Colours by class: those of light screens, and those of dark ones."""
    rules = ["\n".join(f".{name} {{ fill: {colour}; stroke: {colour}; }}" for name, colour in colours.items()) for colours in (LIGHT, DARK)]
    fixed = "text { font: 12px system-ui, sans-serif; } .ink { stroke: none; } .title { font-weight: 600; } path.line { fill: none; stroke-width: 1.5; }"
    return f"<style>\n{rules[0]}\n@media (prefers-color-scheme: dark) {{\n{rules[1]}\n}}\n{fixed}\n</style>"


def text(x: float, y: float, words: str, kind: str = "ink", more: str = "") -> str:
    return f'<text class="{kind}" x="{x:.1f}" y="{y:.1f}"{more}>{words}</text>'


def line(x1: float, y1: float, x2: float, y2: float) -> str:
    return f'<path class="grid" d="M{x1:.1f} {y1:.1f}L{x2:.1f} {y2:.1f}"/>'


def spread(places: Iterable[float], gap: float) -> list[float]:
    """Ascending places, moved apart to a gap at least, each close to where it was."""
    moved: list[float] = []
    for place in places:
        moved.append(max(place, moved[-1] + gap) if moved else place)
    limit = math.inf
    for k in reversed(range(len(moved))):
        moved[k] = limit = min(moved[k], limit - gap, RIGHT + 8)
    return moved


def series_of(rows: list[dict[str, str]], x: Scale, y: Scale, heights: list[float | None], each: Series) -> str:
    """The points of a series, and a line through them."""
    points = [(x(int(row["bytes"])), y(height)) for row, height in zip(rows, heights) if height is not None]
    path = "L".join(f"{a:.1f} {b:.1f}" for a, b in points)
    marks = "".join(f'<path transform="translate({a:.1f} {b:.1f})" d="{each.shape}"/>' for a, b in points)
    return f'<path class="line {each.program}" d="M{path}"/><g class="{each.program}">{marks}</g>'


def grid_of(y: Scale, ticks: list[tuple[float, str]], title: str) -> list[str]:
    parts = [text(LEFT, y.end - 10, title, "ink title")]
    for value, words in ticks:
        parts += [line(LEFT, y(value), RIGHT, y(value)), text(LEFT - 8, y(value) + 4, words, more=' text-anchor="end"')]
    return parts


def legend() -> list[str]:
    parts, at = [], LEFT
    for each in SERIES:
        parts.append(f'<path transform="translate({at + 5} 20)" class="{each.program}" d="{each.shape}"/>')
        parts.append(text(at + 15, 24, each.name))
        at += 28 + round(6.3 * len(each.name))
    return parts


def names_of(dumps: list[tuple[str, int]], x: Scale) -> list[str]:
    """The dumps' names below the panels, each with a line to its place."""
    parts = []
    places = [x(size) for _, size in dumps]
    for (name, size), place, moved in zip(dumps, places, spread(places, 19)):
        parts += [line(place, TIMES[0], place, TIMES[1]), line(place, PEAKS[0], place, PEAKS[1]), line(place, PEAKS[1], moved, PEAKS[1] + 14)]
        parts.append(text(moved + 4, PEAKS[1] + 22, f"{name}, {size / 1e6:.0f} MB",
                          more=f' text-anchor="end" transform="rotate(-50 {moved + 4:.1f} {PEAKS[1] + 22})"'))
    return parts


def draw(table: list[dict[str, str]]) -> str:
    dumps = sorted({(row["dump"], int(row["bytes"])) for row in table}, key=lambda dump: dump[1])
    x = Scale(dumps[0][1] / 1.2, dumps[-1][1] * 1.2, LEFT, RIGHT)
    seconds = [float(row["seconds"]) for row in table]
    decades = range(math.floor(math.log10(min(seconds))), math.ceil(math.log10(max(seconds))) + 1)
    times = Scale(10.0 ** decades[0], 10.0 ** decades[-1], TIMES[1], TIMES[0])
    peaks = Scale(0, 3, PEAKS[1], PEAKS[0], False)
    parts = grid_of(times, [(10.0**k, f"{10.0**k:g} s") for k in decades], "Time to open, in seconds")
    parts += grid_of(peaks, [(k, str(k)) for k in range(4)], "Most memory, divided by the file’s size")
    parts += legend() + names_of(dumps, x)
    for each in SERIES:
        rows = [row for row in table if (row["program"], row["threads"]) == (each.program, each.threads)]
        rows.sort(key=lambda row: int(row["bytes"]))
        parts.append(series_of(rows, x, times, [float(row["seconds"]) for row in rows], each))
        parts.append(series_of(rows, x, peaks, [int(row["peak"]) / int(row["bytes"]) if row["peak"] else None for row in rows], each))
    height = PEAKS[1] + 145
    head = f'<svg xmlns="http://www.w3.org/2000/svg" viewBox="0 0 {WIDTH} {height}" width="{WIDTH}" height="{height}" role="img">'
    title = "<title>How long dumps take to open, and how much memory that takes</title>"
    paper = f'<rect class="paper" width="{WIDTH}" height="{height}"/>'
    return "\n".join([head, title, style(), paper, *parts, "</svg>", ""])


def main() -> None:
    given = sys.argv[1:]
    if len(given) > 2 or any(word.startswith("-") for word in given):
        sys.exit("usage: bench/draw.py [TABLE [PICTURE]]")
    names = [*given, *[TOP / "bench/opening.csv", TOP / "docs/performance.svg"][len(given):]]
    with open(names[0], newline="") as table:
        picture = draw(list(csv.DictReader(table)))
    Path(names[1]).write_text(picture)


main()
