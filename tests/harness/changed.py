"""Changes of the nodes of a certificate."""
import struct

from harness.certificates import SPLIT, STEP, UNKNOWN, chained, written
from harness.drawn import HALVES

IN, BITS, NOT_BITS, OUT, MET = range(1, 6)


def entry(tag, word, one, other):
    """The bytes of a literal, or of what is said of a rule or a condition."""
    return struct.pack("<BBII", tag, word, one, other)


def change(dice, nodes):
    """Changes a node: what it says of the record is dropped, added or weakened, an edge led elsewhere, the halves of a split
    exchanged, the node itself exchanged with another, or a value stated of a register or of a scratch word. Where it says
    nothing or has no edge to change, it stays."""
    place, other = dice.below(len(nodes)), dice.below(len(nodes))
    way = dice.below(8)
    if way == 0:
        nodes[place], nodes[other] = nodes[other], nodes[place]
        return
    if way in (1, 2):
        # There are few splits.
        place = max((at for at, node in enumerate(nodes) if node.kind == SPLIT), default=place)
    node = nodes[place]
    way = dice.below(8)
    if way in (0, 2) and node.claims:
        node.claims.pop(dice.below(len(node.claims)))
    if way in (1, 2):
        node.claims.append(draw_claim(dice))
    if way == 3 and node.claims:
        at = dice.below(len(node.claims))
        node.claims[at] = weakened(node.claims[at], dice.pick(HALVES))
    if way in (4, 5):
        change_edges(dice, node, other)
    if way == 6:
        node.registers[0] = draw_value(dice)
    if way == 7:
        value = draw_value(dice)
        node.scratch.pop(1, None)
        if value != UNKNOWN:
            node.scratch[1] = value


def draw_claim(dice):
    """A claim: of a word, of one of the two rules that a profile mostly has at most, or of its first condition."""
    rule = dice.pick((0, 0, 0, 0, 1, 1, 1, 2))
    word = dice.pick((0, 0, 0, 1, 1, 4, 5, 6))
    first, second = dice.pick(HALVES), dice.pick(HALVES)
    way = dice.below(9)
    if way == 0:
        return entry(IN, word, first, second)
    if way < 3:
        return entry(BITS if way == 1 else NOT_BITS, word, first, first & second)
    if way < 6:
        return entry(OUT, 0, rule, 0)
    return entry(MET, 0, rule, dice.pick((0, 0, 0, 0, 0, 1, 1, 2)))


def weakened(claim, bits):
    """A literal that says less. What is said of rules and conditions stays."""
    tag, word, one, other = struct.unpack("<BBII", claim)
    if tag == IN:
        return entry(tag, word, one & bits, other | bits)
    if tag == BITS:
        return entry(tag, word, one & bits, other & bits)
    if tag == NOT_BITS:
        return entry(tag, word, one | bits, other)
    return claim


def draw_value(dice):
    """What is stated of a register."""
    way = dice.below(3)
    if way == 0:
        return UNKNOWN
    if way == 1:
        return struct.pack("<BBI", 1, 0, dice.pick(HALVES))
    word = dice.below(8)
    return struct.pack("<BBI", 2, word, dice.pick(HALVES))


def change_edges(dice, node, other):
    """Leads an edge of a step or a split to another node, or exchanges both; or exchanges a split's literals, its edges with them or
    not, or weakens one."""
    way = dice.below(8)
    if node.kind == STEP:
        first, second = node.successors
        node.successors = [other, second] if way < 2 else [first, other] if way < 4 else [second, first]
    elif node.kind == SPLIT and way < 2:
        node.successors[way] = other
    elif node.kind == SPLIT and way < 5:
        node.literals.reverse()
        if way == 4:
            node.successors.reverse()
    elif node.kind == SPLIT:
        node.literals[0] = weakened(node.literals[0], dice.pick(HALVES))


def in_some_form(dice, nodes):
    """The bytes of nodes, in one of the forms that can say all of it."""
    is_plain = all(claim[0] < OUT for node in nodes for claim in node.claims)
    has_scratch = any(node.scratch for node in nodes)
    if dice.below(8) == 0 or not is_plain:
        return chained(nodes, 4)
    if dice.below(3) == 0 and not has_scratch:
        return written(nodes)
    return chained(nodes, 3 if has_scratch else 2)
