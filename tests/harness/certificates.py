"""Certificates as lists of nodes: their bytes are read and written here, apart from the library, as docs/CERTIFICATES.md has it."""
import struct
from dataclasses import dataclass

MAGIC = b"CCRT"
STEP, SPLIT, RETURN, DEAD = range(4)
UNKNOWN = bytes(6)


@dataclass
class Node:
    """A node. Values, literals and what is said of rules and conditions are their own bytes."""

    kind: int
    pc: int
    registers: list
    scratch: dict
    claims: list
    literals: list
    successors: list

    def tail(self):
        """The bytes at its end."""
        return b"".join(self.literals) + struct.pack(f"<{len(self.successors)}I", *self.successors)


class Reader:
    """Bytes from a place on."""

    def __init__(self, data, at):
        self.data, self.at = data, at

    def take(self, count):
        """The next bytes."""
        self.at += count
        return self.data[self.at - count : self.at]

    def numbers(self, form):
        """The next numbers, in a form of `struct`."""
        return struct.unpack("<" + form, self.take(struct.calcsize("<" + form)))


def read(data):
    """The nodes of a certificate of form 2, 3 or 4."""
    reader = Reader(data, 4)
    version, count, entry_count = reader.numbers("III")
    entries = [None]
    for _ in range(entry_count):
        (parent,) = reader.numbers("I")
        entries.append((parent, reader.take(10)))
    reader.take(4 * count)
    return [read_node(reader, version, entries) for _ in range(count)]


def read_node(reader, version, entries):
    """The node at a place."""
    kind, pc = reader.numbers("BxH")
    registers = [reader.take(6), reader.take(6)]
    stated = reader.numbers("H")[0] if version > 2 else 0
    scratch = {word: reader.take(6) for word in range(16) if stated >> word & 1}
    (chain,) = reader.numbers("I")
    claims = []
    while chain:
        chain, claim = entries[chain]
        claims.append(claim)
    literals = [reader.take(10), reader.take(10)] if kind == SPLIT else []
    successors = [*reader.numbers("II")] if kind in (STEP, SPLIT) else []
    return Node(kind, pc, registers, scratch, claims[::-1], literals, successors)


def written(nodes):
    """The bytes of nodes in form 1, which has no scratch words, and neither rules that are out nor conditions that are met."""
    parts = [MAGIC, struct.pack("<II", 1, len(nodes))]
    for node in nodes:
        parts += [struct.pack("<BHH", node.kind, node.pc, len(node.claims)), *node.registers, *node.claims, node.tail()]
    return b"".join(parts)


def chained(nodes, version):
    """The bytes of nodes in form 2, 3 or 4, each with a chain of its own."""
    entries, tails = [], []
    for node in nodes:
        chain = 0
        for claim in node.claims:
            entries.append(struct.pack("<I", chain) + claim)
            chain = len(entries)
        parts = [struct.pack("<BxH", node.kind, node.pc), *node.registers]
        if version > 2:
            parts += [struct.pack("<H", sum(1 << word for word in node.scratch)), *(node.scratch[word] for word in sorted(node.scratch))]
        tails.append(b"".join([*parts, struct.pack("<I", chain), node.tail()]))
    table, at = [], 16 + 14 * len(entries) + 4 * len(nodes)
    for tail in tails:
        table.append(struct.pack("<I", at))
        at += len(tail)
    return b"".join([MAGIC, struct.pack("<III", version, len(nodes), len(entries)), *entries, *table, *tails])
