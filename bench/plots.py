#!/usr/bin/env python3
"""Draws the tables of docs/SPEED.md that show growth, as bars of text, and holds the page to them.

    bench/plots.py            prints each plot that is not what it should be
    bench/plots.py --write    puts them into the page

A plot stands as a block of text after the line `<!-- plot: COLUMN -->`, and draws this column of
the last table above it. Its scale begins at 0, and the longest bar is the largest number.
"""

from __future__ import annotations

import re
import sys
from pathlib import Path

PAGE = Path(__file__).resolve().parent.parent / "docs" / "SPEED.md"
WIDTH = 50
BLOCK = re.compile(r"<!-- plot: ([^>]+) -->\n```text\n(.*?)```\n", re.DOTALL)


def cells(row: str) -> list[str]:
    """The cells of a row of a table."""
    return [cell.strip() for cell in row.strip().strip("|").split("|")]


def table_above(text: str, end: int) -> list[list[str]]:
    """The rows of the last table before a place: its head, and the rows below the line."""
    lines = text[:end].splitlines()
    rows: list[list[str]] = []
    while lines and not lines[-1].startswith("|"):
        lines.pop()
    while lines and lines[-1].startswith("|"):
        rows.insert(0, cells(lines.pop()))
    if len(rows) < 3:
        raise ValueError("no table stands above a plot")
    return [rows[0], *rows[2:]]


def number(cell: str) -> float:
    """The first number of a cell, without its commas and its unit."""
    found = re.search(r"\d[\d,]*(\.\d+)?", cell)
    if found is None:
        raise ValueError(f"{cell} has no number")
    return float(found[0].replace(",", ""))


def plot(table: list[list[str]], column: str) -> str:
    """A bar for each row of a table, as long as its number is large."""
    head, *rows = table
    place = head.index(column)
    most = max(number(row[place]) for row in rows)
    left = max(len(row[0]) for row in rows)
    right = max(len(row[place]) for row in rows)
    bars = ["█" * round(WIDTH * number(row[place]) / most) for row in rows]
    lines = [
        f"  {row[0]:>{left}}  {row[place]:>{right}}  {bar}"
        for row, bar in zip(rows, bars, strict=True)
    ]
    return f"  {head[0]}, and {column[0].lower()}{column[1:]}:\n\n" + "\n".join(lines) + "\n"


def drawn(text: str) -> str:
    """The page with each of its plots made anew."""
    parts: list[str] = []
    at = 0
    for found in BLOCK.finditer(text):
        made = plot(table_above(text, found.start()), found[1])
        parts += [text[at:found.start(2)], made]
        at = found.end(2)
    return "".join([*parts, text[at:]])


def main(arguments: list[str]) -> int:
    """Writes the plots, or tells whether one of them is not what it should be."""
    text = PAGE.read_text(encoding="utf-8")
    wanted = drawn(text)
    if arguments == ["--write"]:
        PAGE.write_text(wanted, encoding="utf-8")
    elif wanted != text:
        print("docs/SPEED.md: a plot is not what bench/plots.py makes of the table above it")
        return 1
    return 0


if __name__ == "__main__":
    sys.exit(main(sys.argv[1:]))
