#!/usr/bin/env python3
"""Shows that `examples/documents` refuses a page that is wrong, and names what is wrong in it.

    examples/wrong-pages.py

Each row changes one place of a copy of the repository: a page, or a source that a page follows.
"""

from __future__ import annotations

import shutil
import subprocess
import sys
import tempfile
from pathlib import Path
from typing import NamedTuple

TOP = Path(__file__).resolve().parent.parent


class Row(NamedTuple):
    """A place that is changed, and what must be said of it."""

    what: str
    file: str
    old: str
    new: str
    said: str


ROWS = (
    Row(
        "a crate in a picture", "docs/ARCHITECTURE.md",
        "sporc_serve sporc_docs", "sporc_serve sporc_dogs", "docs/ARCHITECTURE.md:",
    ),
    Row(
        "an offset in a picture", "docs/FORMATS.md",
        "   27   28  │", "   27   29  │", "docs/FORMATS.md:",
    ),
    Row(
        "the definition that a picture is made of", "crates/sporc_entry/specs/Entry.antt",
        "base_hash ← bytes_at 32", "base_hash ← bytes_at 33", "docs/FORMATS.md:",
    ),
    Row(
        "the report that a picture is made of", "examples/fork.report",
        "wrong-history", "wrong-number", "README.md:",
    ),
    Row(
        "a number above a plot", "docs/SPEED.md",
        "| 4 | 3,641 |", "| 4 | 3,642 |", "docs/SPEED.md:",
    ),
    Row(
        "a clause", "docs/PROOFS.md",
        "(`fault` or `value`, `ok`", "(`fault` or `valve`, `ok`", "no clause valve",
    ),
    Row(
        "a promise among the threats", "docs/THREATS.md",
        "`one_history`", "`one_histori`", "one_histori",
    ),
    Row(
        "a long sentence", "docs/MANUAL.md",
        "Makes a new key", "Makes " + "very " * 40 + "new keys", "a sentence of",
    ),
    Row(
        "a link", "README.md",
        "(docs/THREATS.md)", "(docs/THREAT.md)", "there is no docs/THREAT.md",
    ),
    Row(
        "a status, which the manual page has too", "docs/MANUAL.md",
        "| 5 | `fault unsettled", "| 6 | `fault unsettled", "docs/sporc.1",
    ),
)


def copy_to(folder: Path) -> None:
    """Copies what the pages are held against."""
    leave = shutil.ignore_patterns("out", ".git", "__pycache__")
    for name in ("crates", "docs", "examples", "bench"):
        shutil.copytree(TOP / name, folder / name, ignore=leave)
    for name in ("README.md", "CHANGELOG.md", "CONTRIBUTING.md", "crates.txt"):
        shutil.copy(TOP / name, folder / name)


def documents(folder: Path) -> tuple[int, str]:
    """The status of `examples/documents` over a folder, and what it says."""
    script = folder / "examples" / "documents"
    done = subprocess.run([script], capture_output=True, text=True, check=False, timeout=120)
    return done.returncode, done.stdout + done.stderr


def refused(folder: Path, row: Row) -> bool:
    """Whether the changed place is refused, and named."""
    file = folder / row.file
    right = file.read_text(encoding="utf-8")
    if row.old not in right:
        print(f"wrong pages: {row.file} does not have {row.old}")
        return False
    file.write_text(right.replace(row.old, row.new, 1), encoding="utf-8")
    status, said = documents(folder)
    file.write_text(right, encoding="utf-8")
    if status != 0 and row.said in said:
        return True
    print(f"wrong pages: {row.what}: status {status}, said {said[:200]!r}")
    return False


def main() -> int:
    """Tries each row, once the right pages have passed."""
    with tempfile.TemporaryDirectory() as name:
        folder = Path(name)
        copy_to(folder)
        status, said = documents(folder)
        if status != 0:
            print(f"wrong pages: the right ones are refused: {said[:200]!r}")
            return 1
        fine = [refused(folder, row) for row in ROWS]
    print(f"wrong pages: {sum(fine)} of {len(fine)} refused")
    return 0 if all(fine) else 1


if __name__ == "__main__":
    sys.exit(main())
