"""Readers of the program's files and entries, which follow docs/FORMATS.md and docs/PROTOCOL.md alone, for the scripts that
foretell what the program says of bytes."""

import hashlib

MAX_ENTRY = 1_057_977


class Malformed(Exception):
    """A field is cut, or has a value that it may not have."""

    def __init__(self, at):
        super().__init__(at)
        self.at = at


class Fields:
    """Bytes that are read field by field."""

    def __init__(self, data, at=0):
        self.data = data
        self.at = at

    def take(self, length, may_be=lambda _: True):
        """The next field of so many bytes, whose value may be this."""
        field = self.data[self.at : self.at + length]
        if len(field) < length or not may_be(field):
            raise Malformed(self.at)
        self.at += length
        return field

    def number(self, length, may_be=lambda _: True):
        """The same of a number."""
        return number(self.take(length, lambda field: may_be(number(field))))

    def counted(self, limit):
        """Bytes behind their length."""
        return self.take(self.number(4, lambda length: length <= limit))

    def ended(self):
        """Nothing follows."""
        if self.at < len(self.data):
            raise Malformed(self.at)


def number(field):
    """A number, as bytes spell it."""
    return int.from_bytes(field, "big")


def has_key(key):
    """Whether these bytes are a public key of a known type."""
    return 5 <= number(key[:4]) <= 9 and 1 <= number(key[4:8]) <= 4


def read_genesis(data):
    """The document, the commitment, and the role and the key of each founder."""
    fields = Fields(data)
    fields.take(1, lambda version: version == b"\1")
    document, commitment = fields.take(16), fields.take(32)
    founders, last = {}, 0
    for _ in range(fields.number(2, lambda count: 1 <= count <= 64)):
        last = fields.number(2, lambda member, least=last: member > least)
        founders[last] = (fields.number(1, lambda role: 1 <= role <= 3), fields.take(56))
    fields.ended()
    if not any(role == 3 for role, _ in founders.values()) or not all(has_key(key) for _, key in founders.values()):
        raise Malformed(0)
    return document, commitment, founders


def read_key(data, member):
    """What the public key is made of."""
    fields = Fields(data)
    fields.take(4, lambda format: format == b"SPK1")
    fields.number(2, lambda owner: owner == member)
    types = fields.number(4, lambda type: type in [5, 6, 7]), fields.number(4, lambda type: type in [3, 4])
    secrets = fields.take(16), fields.take(32)
    fields.ended()
    return types, secrets


def read_ring(data, member):
    """The key of epoch 0, if there is one."""
    fields = Fields(data)
    fields.take(4, lambda format: format == b"SPR1")
    fields.number(2, lambda owner: owner == member)
    key = fields.take(32) if fields.number(1, lambda flag: flag <= 1) == 1 else None
    last = -1
    for _ in range(fields.number(2)):
        last = fields.number(2, lambda other, least=last: other > least)
        fields.take(32)
    fields.ended()
    return key


def read_history(data, document):
    """The entries."""
    if data[:20] != b"SPH1" + document:
        raise Malformed(0)
    fields = Fields(data, 20)
    entries = [fields.counted(2**32) for _ in range(fields.number(4, lambda count: count <= 16_384))]
    fields.ended()
    return entries


def read_change(fields, version):
    """A change's body, in an entry of this version."""
    kind = fields.number(1, lambda kind: kind in ([1, 2, 3, 6] if version == 1 else [1, 2, 3, 4, 5]))
    if kind != 6:
        fields.number(2, lambda member: member > 0)
    if kind in [1, 3]:
        fields.number(1, lambda role: 1 <= role <= 3)
    if kind in [4, 5]:
        fields.number(1)
    if kind in [1, 4]:
        fields.take(56)
    fields.take(64)
    for _ in range(fields.number(2, lambda count: count <= 64)):
        fields.take(34)
    fields.ended()


def read_entry(data):
    """The fields of an entry, by name."""
    fields = Fields(data)
    entry = {"version": fields.number(1, lambda version: version in [1, 2]), "document": fields.take(16)}
    for name, length in [("author", 2), ("device", entry["version"] - 1), ("number", 4), ("base", 4)]:
        entry[name] = fields.number(length)
    entry["base hash"] = fields.take(32)
    entry["epoch"], entry["leaf"] = fields.number(4), fields.number(4)
    entry["kind"] = fields.number(1, lambda kind: kind in [1, 2])
    body = fields.counted(1_048_576 if entry["kind"] == 1 else 65_536)
    if entry["kind"] == 2:
        read_change(Fields(data[: fields.at], fields.at - len(body)), entry["version"])
    entry["signature"] = fields.counted(9_324)
    fields.ended()
    return entry


def read_tail(data, document, log):
    """The entries that a log lacks of its tail, unchecked."""
    head = b"SPT1" + document
    if data[:20] != head and not head.startswith(data):
        raise Malformed(0)
    lacking, at, position = [], 20, None
    while len(data) - at >= 4:
        found = number(data[at : at + 4])
        if not (1 <= found <= len(log) + 1 if position is None else found == position):
            raise Malformed(at)
        if len(data) - at < 8:
            break
        length = number(data[at + 4 : at + 8])
        if length > MAX_ENTRY:
            raise Malformed(at + 4)
        entry = data[at + 8 : at + 8 + length]
        if len(entry) < length:
            break
        if found > len(log):
            lacking.append(entry)
        elif entry != log[found - 1]:
            raise Malformed(at + 8)
        at, position = at + 8 + length, found + 1
    return lacking


def hashed(*parts):
    """SHA-256 of these bytes."""
    return hashlib.sha256(b"".join(parts)).digest()


def refused(data, genesis, entries):
    """By which check an order refuses a spoilt entry behind these, which are honest edits in version 1, and the detail."""
    try:
        entry = read_entry(data)
    except Malformed as fault:
        return 1, fault.at
    chain = [hashed(b"\0", genesis)]
    for before in entries:
        chain.append(hashed(b"\1", chain[-1], hashed(b"\2", before)))
    document, _, founders = read_genesis(genesis)
    length = len(entries)
    own = [position for position, before in enumerate(entries, 1) if read_entry(before)["author"] == entry["author"]]
    checks = [
        (2, entry["document"] == document),
        (22, entry["version"] == 1),
        (6, entry["author"] in founders),
        (7, entry["base"] <= length),
        (9, entry["base hash"] == chain[min(entry["base"], length)]),
        (10, entry["number"] == len(own) + 1),
        (11, not own or entry["base"] >= own[-1]),
        (12, entry["epoch"] == 0),
        (13, founders.get(entry["author"], (1,))[0] >= 1 + entry["kind"]),
        (14, entry["signature"][:4] == entry["leaf"].to_bytes(4, "big")),
    ]
    return next((number for number, holds in checks if not holds), 15), 0
