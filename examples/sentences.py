#!/usr/bin/env python3
"""Refuses a sentence of more than forty words on a page, and prints where it begins.

    examples/sentences.py [--list N] PAGE ..      with --list: the sentences of more than N words

A sentence ends with a full stop, a question mark or an exclamation mark before a space, with its
paragraph, its item of a list, or its cell of a table. What stands between backticks, and what a
link leads to, counts as one word. Blocks of commands, pictures and headings are no sentences, nor
is the last cell of a row that lists contracts or definitions.
"""

from __future__ import annotations

import re
import sys
from collections.abc import Iterator
from pathlib import Path

LIMIT = 40
# The heads of last columns that list names, and tell nothing.
LISTS = {"Contract", "Definition", "Where it stands"}


def blocks(text: str) -> Iterator[tuple[int, str]]:
    """Each paragraph, item and cell of a page, with the number of its first line."""
    fenced = False
    start, held = 0, ""
    names = 0
    row_before = False
    for number, line in enumerate(text.splitlines(), 1):
        row = line.startswith("|")
        fence = line.startswith("```")
        alone = fence or fenced or row or line.startswith(("#", "    ", "<!--")) or not line.strip()
        item = re.match(r" *([-*]|\d+\.) ", line)
        if (alone or item) and held:
            yield start, held
            held = ""
        if fence:
            fenced = not fenced
        if row:
            cells = [cell.strip() for cell in re.split(r"(?<!\\)\|", line)[1:-1]]
            if not row_before:
                names = 1 if cells[-1] in LISTS else 0
            for cell in cells[: len(cells) - names]:
                yield number, cell
        row_before = row
        if not alone:
            start, held = (start, held + " " + line.strip()) if held else (number, line.strip())
    if held:
        yield start, held


def sentences(block: str) -> list[str]:
    """The sentences of a paragraph, an item or a cell."""
    plain = re.sub(r"`[^`]*`", "`code`", block)
    plain = re.sub(r"\[([^\]]*)\]\([^)]*\)", r"\1", plain)
    return re.split(r"(?<=[.?!])[*)\"']*\s+", plain)


def words(sentence: str) -> int:
    """How many words a sentence has."""
    return len([word for word in sentence.split() if re.search(r"\w", word)])


def longer(page: Path, limit: int) -> Iterator[str]:
    """The sentences of a page that have more words than the limit, a line for each."""
    for number, block in blocks(page.read_text(encoding="utf-8")):
        for sentence in sentences(block):
            count = words(sentence)
            if count > limit:
                yield f"{page}:{number}: a sentence of {count} words: {sentence[:60]}"


def main(arguments: list[str]) -> int:
    """Prints what is too long, and answers whether something is."""
    limit = LIMIT
    if arguments[:1] == ["--list"]:
        limit = int(arguments[1])
        arguments = arguments[2:]
    found = [line for page in arguments for line in longer(Path(page), limit)]
    for line in found:
        print(line)
    return 1 if found else 0


if __name__ == "__main__":
    sys.exit(main(sys.argv[1:]))
