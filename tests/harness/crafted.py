"""Nodes that no run reaches, behind a valid certificate: each tries one rule of the checker on a state that is drawn."""
import struct

from harness.certificates import DEAD, RETURN, SPLIT, STEP, UNKNOWN, Node, chained, read, written
from harness.changed import BITS, IN, MET, NOT_BITS, OUT, entry

ALL = 0xFFFFFFFF
MASKS = (ALL, ALL, ALL, 0, 1, 2, 3, 0x10, 0xFF, 0xFFF0, 0xFFFFFF00, 0x80000000, 0x80000001)
NUMBERS = (0, 0, 1, 2, 3, 5, 0x10, 0xFF, 0x100, 0x3FFFFFFF, 0x40000000, 0x7FFFFFFF, 0x80000000, 0xFFFFFFFE, ALL)
TOKENS = (0xC000003E, 0xC000003E, 0x40000003, 0xC00000B7, 0x40000028, 0xC00000F3, 0xC0000015, 0xC0000102, 0x80000016, 0x16)
# Those of machines with another one than x86-64.
OF_MACHINES = {
    "x86": 0x40000003, "aarch64": 0xC00000B7, "arm": 0x40000028, "riscv64": 0xC00000F3, "ppc64le": 0xC0000015, "loongarch64": 0xC0000102,
    "s390x": 0x80000016, "s390": 0x16,
}
# Ranges of numbers that are a machine's own, or foreign.
OWN = ((0, 0x3FFFFFFF), (0x40000000, 0xFFFFFFFE), (0x40000000, ALL), (ALL, ALL), (0, ALL))
VALUES = (UNKNOWN, struct.pack("<BBI", 1, 0, 0), struct.pack("<BBI", 1, 0, 5), struct.pack("<BBI", 1, 0, ALL))
JUMPS = (0x15, 0x25, 0x35, 0x45, 0x15, 0x25, 0x35, 0x45, 0x1D, 0x2D, 0x3D, 0x4D)
OTHERS = (0x20, 0x00, 0x01, 0x02, 0x03, 0x60, 0x61, 0x04, 0x0C, 0x14, 0x44, 0x54, 0x54, 0x5C, 0xA4, 0x64, 0x74, 0x84, 0x07, 0x87)


class Craft:
    """Draws nodes for a profile, whose text has a line a rule."""

    def __init__(self, dice, text, data, cert):
        self.dice, self.data, self.nodes, self.version = dice, data, read(cert), cert[4]
        lines = [line.split() for line in text.splitlines()]
        self.default, self.rules = int(lines[3][1], 16), lines[5:]
        self.rule = dice.choice(self.rules) if self.rules else None

    def number(self):
        """A number of 32 bits: from a stock, beside one, a half of a condition's value, or a call's number."""
        way = self.dice.randrange(4)
        if way == 0 and self.rule and len(self.rule) > 3:
            value = self.dice.choice([int(word, 16) for word in self.rule[3:] if word.startswith("0x")])
            return value >> self.dice.choice((0, 32)) & ALL
        if way == 1:
            return self.dice.choice(NUMBERS) + self.dice.choice((0, 1, -1)) & ALL
        if way == 2 and self.rule:
            return int(self.dice.choice((self.rule, self.dice.choice(self.rules)))[1])
        return self.dice.choice(NUMBERS)

    def mask(self):
        """A mask, often one of few bits or one that has all bits from its lowest one up."""
        return self.dice.choice((*MASKS, *MASKS, self.number(), 1 << self.dice.randrange(32), -1 << self.dice.randrange(32) & ALL))

    def literal(self, word):
        """A literal of a word."""
        tag, one, other = self.dice.choice((IN, BITS, NOT_BITS)), self.number(), self.number()
        if tag != IN:
            mask = self.mask()
            return entry(tag, word, mask, one & mask)
        return entry(IN, word, *(sorted((one, other)) if self.dice.randrange(8) else (one, other)))

    def word(self):
        """A word that matters: often a half of an argument that the rule compares."""
        compared = [4 + 2 * int(word[3]) + high for word in self.rule or () if word.startswith("arg") for high in (0, 1)]
        return self.dice.choice((0, 0, 1, 4, 5, *compared, *compared, self.dice.randrange(16)))

    def claim(self):
        """What is said of a rule or a condition."""
        rule = self.dice.randrange(len(self.rules) + 1)
        if self.rule and self.dice.randrange(3):
            rule = self.rules.index(self.rule)
        return entry(OUT, 0, rule, 0) if self.dice.randrange(2) else entry(MET, 0, rule, self.dice.choice((0, 0, 0, 1, 2, 5)))

    def state(self, most):
        """Literals and claims: at random, with a token, and with a number or a range of numbers."""
        claims = [self.literal(self.word()) for _ in range(self.dice.randrange(most))]
        if self.version == 4 and self.dice.randrange(3) == 0:
            claims += [self.claim() for _ in range(self.dice.randrange(3))]
        if self.dice.randrange(4):
            claims.append(entry(BITS, 1, ALL, self.token()))
        if self.rule and self.dice.randrange(2):
            number = int(self.rule[1])
            claims.append(self.dice.choice((entry(BITS, 0, ALL, number), entry(IN, 0, number, number + self.dice.randrange(3) & ALL))))
        if self.rule and self.dice.randrange(2):
            claims += self.halves()
        if self.dice.randrange(8) == 0:
            claims.append(entry(IN, 0, *self.dice.choice(OWN)))
        if self.dice.randrange(16) == 0:
            claims.append(entry(IN, self.word(), 1, 0))
        self.dice.shuffle(claims)
        return claims

    def token(self):
        """A machine's token: mostly that of the rule's machine."""
        if not self.rule or self.dice.randrange(8) == 0:
            return self.dice.choice(TOKENS)
        return OF_MACHINES.get(self.rule[0].removeprefix("linux-"), 0xC000003E)

    def halves(self):
        """Literals by which some conditions of the rule hold, or do not."""
        told = []
        for place, word in enumerate(self.rule):
            if word.startswith("arg") and self.dice.randrange(4):
                value, low = int(self.rule[place + 2], 16), 4 + 2 * int(word[3])
                tag = self.dice.choice((BITS, BITS, NOT_BITS))
                told += [entry(tag, low + high, ALL, value >> 32 * high & ALL) for high in (0, 1) if self.dice.randrange(4)]
        return told

    def value(self):
        """What is stated of a register or of a scratch word."""
        if self.dice.randrange(2):
            return struct.pack("<BBI", 2, self.word(), self.mask())
        return self.dice.choice(VALUES)

    def split(self):
        """Two literals of a split, mostly as they may be."""
        word, mask, number = self.word(), self.mask(), self.number()
        lowest = mask & -mask
        pair = self.dice.choice((
            (entry(IN, word, 0, number), entry(IN, word, number + 1 & ALL, ALL)),
            (entry(BITS, word, mask, number & mask), entry(NOT_BITS, word, mask, number & mask)),
            (entry(BITS, word, lowest, 0), entry(BITS, word, lowest, lowest)),
            (entry(BITS, word, mask, 0), entry(BITS, word, mask, mask)),
            (entry(BITS, word, mask, 0), entry(IN, word, lowest, ALL)),
            (self.literal(word), self.literal(self.word())),
        ))  # fmt: skip
        return [*pair[:: self.dice.choice((1, -1))]]

    def instruction(self):
        """An instruction: mostly a test."""
        code = self.dice.choice(JUMPS if self.dice.randrange(3) else OTHERS)
        k = self.number() & self.mask() if self.dice.randrange(2) else self.number()
        if code in (0x02, 0x03, 0x60, 0x61):
            k %= 3
        k = 4 * (k % 16) if code == 0x20 else k % 32 if code in (0x64, 0x74) else k
        return code, *((0, 1) if code in JUMPS else (0, 0)), k

    def behind(self, node, kept):
        """A node at the end, which says part of what another does, and something that may follow."""
        claims = [claim for claim in node.claims if self.dice.randrange(3)]
        for _ in range(self.dice.choice((0, 1, 1, 2))):
            claims.append(self.claim() if self.version == 4 and self.dice.randrange(3) == 0 else self.literal(self.word()))
        if kept and self.dice.randrange(2):
            claims.append(self.dice.choice(kept))
        registers = [value if self.dice.randrange(4) else self.dice.choice((UNKNOWN, self.value())) for value in node.registers]
        scratch = {word: value for word, value in node.scratch.items() if self.dice.randrange(2) and value != UNKNOWN}
        return Node(DEAD, 0, registers, scratch, claims, [], [])

    def made(self):
        """The bytes of a filter and of a certificate, with nodes behind both that try a rule."""
        start, first = len(self.data) // 8, len(self.nodes)
        verdicts = {int(rule[2], 16) for rule in self.rules} | {0, self.default}
        verdict = self.dice.choice(sorted(verdicts))
        returned = (0x16, 0, 0, 0) if self.dice.randrange(6) == 0 else (0x06, 0, 0, verdict)
        added = [self.instruction(), returned, (0x06, 0, 0, self.default)]
        data = self.data + b"".join(struct.pack("<HBBI", *one) for one in added)
        registers = [self.value(), self.dice.choice(VALUES)]
        if self.dice.randrange(6) == 0:
            registers[0] = struct.pack("<BBI", 1, 0, verdict)
        scratch = {word: self.value() for word in range(3) if self.dice.randrange(8) == 0} if self.version > 2 else {}
        scratch = {word: value for word, value in scratch.items() if value != UNKNOWN}
        kind = self.dice.choice((STEP, STEP, SPLIT, RETURN, RETURN, DEAD))
        node = Node(kind, start, registers, scratch, self.state(self.dice.choice((3, 3, 6, 40))), [], [])
        if kind == RETURN:
            node.pc = start + 1
        if kind == SPLIT:
            node.literals, node.successors = self.split(), [first + 1, first + 2]
        if kind == STEP:
            node.successors = [first + 1, first + 2 if added[0][0] in JUMPS else ALL]
        nodes = [*self.nodes, node]
        for edge in range(len(node.successors)):
            more = self.behind(node, node.literals[edge : edge + 1])
            more.pc = start if kind == SPLIT else start + 1 + edge
            nodes.append(more)
        return data, written(nodes) if self.version == 1 else chained(nodes, self.version)
