#!/usr/bin/env python3
"""Makes the pictures of the pages from what they show, and holds the pages against them.

    examples/pictures.py            prints each picture of a page that is not what it should be
    examples/pictures.py --write    puts them into the pages

A picture stands in a page as a block of text after the line `<!-- picture: NAME -->`. Each is made
of a source: the scripts of plays with their reports, `crates.txt`, the definition that reads an
entry, the fields of a change, or a small model of what it shows.
"""

from __future__ import annotations

import re
import sys
from collections.abc import Callable
from itertools import groupby
from pathlib import Path

Lines = list[str]
TOP = Path(__file__).resolve().parent.parent


def read(name: str) -> str:
    """A file of the repository."""
    return (TOP / name).read_text(encoding="utf-8")


def script(name: str) -> Lines:
    """The lines of a play script that are no comments."""
    lines = read(f"examples/{name}.play").splitlines()
    return [line for line in lines if line and not line.startswith("#")]


# ---- a fork


def deliveries() -> list[tuple[str, int, str, str]]:
    """Of the play of a fork: who is handed which entry at which position, and what is answered."""
    report = [line for line in read("examples/fork.report").splitlines() if " accept " in line]
    gives = [line.split() for line in script("fork") if line.startswith("give ")]
    found = []
    for (_, client, position, entry), answer in zip(gives, report, strict=True):
        who, said = answer.split(" ", 1)
        if who != client or not said.startswith(f"accept {position} "):
            raise ValueError(f"examples/fork.report: {answer} does not answer give {client}")
        found.append((client, int(position), entry, said))
    return found


def fork() -> Lines:
    """What a lying server hands to two members, and what each of them and `compare` say."""
    report = read("examples/fork.report").splitlines()
    author = {line.split()[3]: line.split()[0] for line in report if " submit entry " in line}
    handed = {(who, place): (entry, said) for who, place, entry, said in deliveries()}
    places = sorted({place for _, place in handed})
    width = max(len(said) for _, said in handed.values()) - 4
    head = "position   member 1 is handed".ljust(width + 26)
    lines = ["  " + head + "            member 2 is handed", ""]
    for place in places:
        cells = []
        for who in ("1", "2"):
            entry, said = handed.get((who, place), ("", ""))
            cells.append(f"entry {entry} by {author[entry]}   {said}" if entry else "")
        same = handed.get(("1", place)) == handed.get(("2", place))
        mark = "==  same  ==" if same else "//  fork  //" if all(cells) else ""
        lines.append(f"  {place:4}       {cells[0]:{width + 12}} {mark:12}  {cells[1]}".rstrip())
        if place != places[-1]:
            both = "|" if ("1", place + 1) in handed else " "
            lines.append(f"                {both}{'':{width + 21}}  |".rstrip())
    return [*lines, "", f"  compare 1 2:  {report[-1]}"]


# ---- layers


def layers() -> list[tuple[str, dict[str, set[str]]]]:
    """The layers of crates.txt, lowest first: a name, and of each crate what it stands on."""
    found: list[tuple[str, dict[str, set[str]]]] = []
    for line in read("crates.txt").splitlines():
        if line.startswith("# ") and not line.startswith("# A line a crate"):
            found.append((line[2:], {}))
        elif re.match(r"[a-z]", line):
            crate, below = line.split(":", 1)
            found[-1][1][crate.split()[0]] = set(below.split())
    return found


def is_test(crate: str) -> bool:
    """Whether only tests stand on a crate, or it is one of tests."""
    return crate.endswith("_tests") or crate == "sporc_samples"


def wrapped(words: Lines, width: int) -> Lines:
    """Words in lines of at most so many columns."""
    lines = [""]
    for word in words:
        if len(lines[-1]) + len(word) + 1 > width:
            lines.append("")
        lines[-1] += (" " if lines[-1] else "") + word
    return lines


def crates() -> Lines:
    """The layers, highest first, with the crates of each and the layers that these name."""
    found = layers()
    layer_of = {crate: place for place, (_, row) in enumerate(found, 1) for crate in row}
    lines = [f"  {'':2} {'layer':34} {'crates':48} stands on", ""]
    for place, (name, row) in reversed(list(enumerate(found, 1))):
        own = [crate for crate in row if not is_test(crate)]
        below = {layer_of[b] for crate in own for b in row[crate] if b in layer_of} - {place}
        rows = wrapped(own, 48)
        for at, part in enumerate(rows):
            left = f"{place:2} {name:34}" if at == 0 else " " * 37
            right = " ".join(map(str, sorted(below, reverse=True))) if at == 0 else ""
            lines.append(f"  {left} {part:48} {right}".rstrip())
    return lines


# ---- deltas


Delta = list[tuple[str, str]]


def marks(edit: Lines, text: str) -> Delta:
    """An insertion of a script, as marks: each keeps a character, or inserts one."""
    at = int(edit[3])
    kept = [("k", "") for _ in text]
    return kept[:at] + [("i", c) for c in edit[4].strip('"')] + kept[at:]


def applied(delta: Delta, text: str) -> str:
    """The text that a delta makes of one."""
    rest = iter(text)
    made = ""
    for kind, character in delta:
        if kind == "i":
            made += character
        elif kind == "k":
            made += next(rest)
        else:
            next(rest)
    return made


def passed(first: Delta, second: Delta) -> tuple[Delta, Delta]:
    """`earlier(first, second)` and `later(second, first)`, of deltas over one text."""
    earlier: Delta = []
    later: Delta = []
    p, q = list(first), list(second)
    while p or q:
        if p and p[0][0] == "i":
            earlier.append(p.pop(0))
            later.append(("k", ""))
        elif q and q[0][0] == "i":
            later.append(q.pop(0))
            earlier.append(("k", ""))
        else:
            mine, other = p.pop(0), q.pop(0)
            if other[0] == "k":
                earlier.append(mine)
            if mine[0] == "k":
                later.append(other)
    return earlier, later


def parts(delta: Delta) -> str:
    """A delta as a report writes it: `k1 i"X" k2`."""
    said: Lines = []
    for kind, equal in groupby(delta, key=lambda mark: mark[0]):
        characters = [character for _, character in equal]
        inserted = "".join(characters)
        said.append(f'i"{inserted}"' if kind == "i" else f"{kind}{len(characters)}")
    return " ".join(said)


def square() -> Lines:
    """Two edits that were made at once, of the play of a tie, in both orders."""
    edits = [line.split() for line in script("tie") if line.startswith("edit ")]
    text = edits[0][4].strip('"')
    p, q = marks(edits[1], text), marks(edits[2], text)
    earlier, later = passed(p, q)
    one, other = applied(p, text), applied(q, text)
    both = applied(later, one)
    shown = read("examples/tie.report").splitlines()[-2].split('"')[1]
    if not both == applied(earlier, other) == shown:
        raise ValueError(f"examples/tie.report shows {shown}, not {both}")
    return [
        f"                     p = {parts(p)}",
        f'        "{text}"  ────────────────────────────>  "{one}"',
        "          │                                      │",
        f"          │  q = {parts(q):31} │  later(q, p) = {parts(later)}",
        "          │                                      │",
        "          v                                      v",
        f'        "{other}" ────────────────────────────>  "{both}"',
        f"            earlier(p, q) = {parts(earlier)}",
    ]


# ---- an entry


def fields() -> list[tuple[str, int, bool]]:
    """The fields of a header, of the definition that reads one: name, bytes, of version 2 alone."""
    text = read("crates/sporc_entry/specs/Entry.antt")
    body = text.split("header_at r = do\n", 1)[1].split("  Ok (", 1)[0]
    found = []
    for line in body.splitlines():
        name, reads = line.strip().split(" ← ")
        if reads.startswith("bytes_at "):
            size = int(reads.split()[1])
        elif reads.startswith("device_at "):
            size = 1
        else:
            bits = re.search(r"\bw(\d+)\b", reads)
            if bits is None:
                raise ValueError(f"Entry.antt: {line} has no width")
            size = int(bits.group(1)) // 8
        found.append((name.replace("_", " "), size, reads.startswith("device_at ")))
    return found


def entry() -> Lines:
    """The bytes of an entry, with the offset of each field in both versions."""
    rows = [*fields(), ("length of the body", 4, False)]
    lines = [
        "  offset in version",
        "    1    2  ┌─────────────────────────┐  bytes",
    ]
    first, second = 0, 0
    for name, size, new in rows:
        start = "   -" if new else f"{first:4}"
        note = ", in version 2 alone" if new else ""
        lines.append(f" {start} {second:4}  │ {name:23} │ {size:4}{note}")
        first += 0 if new else size
        second += size
    return [
        *lines,
        f" {first:4} {second:4}  │ {'body':23} │  as many as its length says; an edit's are masked",
        "            ├─────────────────────────┤  signed is a byte 3, and all up to here",
        f"            │ {'length of the signature':23} │    4",
        f"            │ {'signature':23} │  as many as its length says",
        "            └─────────────────────────┘",
    ]


# ---- epochs


def named_fields() -> set[str]:
    """The fields of the body of a change."""
    text = read("crates/sporc_entry/src/change.rt").split("pub struct ChangeBody {", 1)[1]
    return set(re.findall(r"pub ([a-z_]+):", text.split("}", 1)[0]))


def epochs() -> Lines:
    """What each change of the play of a joiner carries, and the joiner's way back."""
    wanted = {"commitment", "previous", "wraps"}
    if not wanted <= named_fields():
        raise ValueError(f"change.rt: a change has no {wanted - named_fields()}")
    made = [line.split() for line in script("joiner") if line.startswith("change ")]
    changes = [" ".join(words[2:]) for words in made]
    last = len(changes)
    columns = [["genesis", "", "commitment to k0", "", ""]]
    for epoch, change in enumerate(changes, 1):
        joins = " and the joiner" if change.startswith("add") else ""
        columns.append([
            f"change {epoch}: {change}",
            f"starts epoch {epoch}",
            f"commitment to k{epoch}",
            f"previous: k{epoch - 1} under k{epoch}",
            f"wraps: k{epoch} for members{joins}",
        ])
    widths = [max(map(len, column)) for column in columns]
    lines = ["  " + "   ".join(cell.ljust(w) for cell, w in zip(row, widths, strict=True)).rstrip()
             for row in zip(*columns, strict=True)]
    lines += ["", "  the joiner's way back:", ""]
    shared = "under the key that it shares with the author"
    lines.append(f"  its wrap in change {last}, {shared}:  k{last}")
    for epoch in range(last, 0, -1):
        meets = f"meets the commitment of change {epoch}"
        lines.append(f"  k{epoch} {meets}, and opens its previous:  k{epoch - 1}")
    return [*lines, "  k0 meets the commitment of the genesis"]


# ---- a crash


def crash() -> Lines:
    """A log and its tail, before and after a power cut, by a model of what a server does."""
    log, tail, answered = [1, 2, 3], [], 3
    rows: list[tuple[str, str, str, str]] = []

    def note(moment: str, half: str = "") -> None:
        held = " ".join([*map(str, tail), half]).strip()
        rows.append((moment, " ".join(map(str, log)), held or "-", str(answered)))

    note("the server starts")
    tail.append(4)
    note("entry 4 is appended and synced")
    answered = 4
    note("its author is answered")
    note("entry 5 is written, and the power fails", "half of 5")
    note("the next start reads log and tail, and cuts off the half")
    tail.append(5)
    answered = 5
    note("entry 5 comes again")
    log, tail = [*log, *tail], []
    note("the sessions have ended: the log is saved, the tail removed")
    head = ("moment", "NAME.log", "NAME.tail", "answered up to")
    widths = [max(len(row[place]) for row in [head, *rows]) for place in range(4)]
    return ["  " + "   ".join(cell.ljust(w) for cell, w in zip(row, widths, strict=True)).rstrip()
            for row in [head, *rows]]


# ---- a session


def session() -> Lines:
    """The threads of a session of a client, and what they share."""
    for path, word in (
        ("crates/sporc_session/src", "receiver"), ("crates/sporc_session/src", "editor"),
        ("crates/sporc_shared/src", "SharedClient"), ("crates/sporc_turn/src", "Turn"),
    ):
        if not any(word in file.read_text(encoding="utf-8") for file in (TOP / path).glob("*.rt")):
            raise ValueError(f"{path} has no {word}")
    return [
        "  threads                            take turns at the lock of",
        "",
        "  server <── link ──> receiver  ────┐",
        "  script 1 ─────────> editor 1  ────┤    ┌─────────────────────────────────┐",
        "  script 2 ─────────> editor 2  ────┼──> │ SharedClient: history, text,    │",
        "     ..                  ..         │    │ pending edits, journal, leaves  │",
        "  script 8 ─────────> editor 8  ────┘    └─────────────────────────────────┘",
        "",
        "  without a turn: the link is read and written, signatures verified ahead, words drawn",
        "  in a turn:      a look, an edit, a key's lookup, an accept, a submission",
    ]


PICTURES: dict[str, Callable[[], Lines]] = {
    "fork": fork, "layers": crates, "square": square, "entry": entry,
    "epochs": epochs, "crash": crash, "session": session,
}
BLOCK = re.compile(r"(<!-- picture: ([a-z]+) -->\n```text\n)(.*?)(```\n)", re.DOTALL)


def drawn(page: str) -> str:
    """A page with each of its pictures made anew."""
    return BLOCK.sub(lambda m: m[1] + "\n".join(PICTURES[m[2]]()) + "\n" + m[4], page)


def main(arguments: Lines) -> int:
    """Writes the pictures, or tells which of them are not what they should be."""
    pages = [TOP / "README.md", TOP / "CONTRIBUTING.md", *sorted((TOP / "docs").glob("*.md"))]
    shown: set[str] = set()
    failed = False
    for page in pages:
        text = page.read_text(encoding="utf-8")
        wanted = drawn(text)
        shown |= {match[2] for match in BLOCK.finditer(text)}
        if wanted == text:
            continue
        if arguments == ["--write"]:
            page.write_text(wanted, encoding="utf-8")
            continue
        failed = True
        pairs = zip(text.splitlines(), wanted.splitlines(), strict=False)
        place = next((n for n, (is_, be) in enumerate(pairs, 1) if is_ != be), 1)
        where = f"{page.relative_to(TOP)}:{place}"
        print(f"{where}: this picture is not what examples/pictures.py makes")
    for name in sorted(PICTURES.keys() - shown):
        print(f"examples/pictures.py: no page has the picture {name}")
        failed = True
    return 1 if failed else 0


if __name__ == "__main__":
    sys.exit(main(sys.argv[1:]))
