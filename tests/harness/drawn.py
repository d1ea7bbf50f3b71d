"""Random profiles, filters of up to eight instructions, and scripts."""
import struct

ALL = 2**64 - 1
ALLOW, KILL_THREAD = 0x7FFF0000, 0
TOKENS = {"x86-64": 0xC000003E, "aarch64": 0xC00000B7}
# The bit of x32 calls.
LEAST_X32 = 0x40000000
# The machines of which the lower half of an argument is compared.
NARROW = ("linux-x86", "linux-arm", "linux-s390")

VERDICTS = (KILL_THREAD, KILL_THREAD, KILL_THREAD, ALLOW, ALLOW, 0x50001, 0x50002, 0x80000000)
NUMBERS = (0, 1, 1, 2, 3, 5, 7, 435)
# Operators of conditions, each with one that is mostly its opposite.
PAIRS = (("NE", "EQ"), ("LT", "GE"), ("LE", "GT"), ("EQ", "NE"), ("EQ", "NE"), ("GE", "LT"), ("GT", "LE"), ("MASKED_EQ", "NE"))
# The halves of numbers that are drawn.
HALVES = (0, 1, 2, 5, 0x40000000, 0x7FFFFFFF, 0x80000000, 0xFFFFFFFF)


def least_from(low, mask, datum):
    """The least number from one on whose bits under the mask are these, or None."""
    raised = (((low >> bit | 1) << bit) | (datum & ((1 << bit) - 1)) for bit in range(64) if not low >> bit & 1)
    return next((number for number in (low, *raised) if number & mask == datum), None)


def can_meet(conditions, high):
    """Whether one number up to a greatest one meets all these conditions `(OP, VALUE, DATUM)`."""
    low, mask, datum, others = 0, 0, 0, set()
    for op, value, bits in conditions:
        if op in ("EQ", "GE", "GT"):
            low = max(low, value + (op == "GT"))
        if op in ("EQ", "LE", "LT"):
            high = min(high, value - (op == "LT"))
        if op == "NE":
            others.add(value)
        if op == "MASKED_EQ":
            if (datum ^ bits) & mask & value:
                return False
            mask, datum = mask | value, datum | bits
    while low <= high:
        found = least_from(low, mask, datum)
        if found is None or found > high:
            return False
        if found not in others:
            return True
        low = found + 1
    return False


def overlap(rule, other):
    """Whether one record matches both rules `(MACHINE, NUMBER, VERDICT, CONDITIONS)`, each condition an argument's place and so on."""
    if rule[:2] != other[:2]:
        return False
    conditions, high = rule[3] + other[3], 2**32 - 1 if rule[0] in NARROW else ALL
    return all(can_meet([cond[1:] for cond in conditions if cond[0] == place], high) for place in {cond[0] for cond in conditions})


def draw_value(dice):
    """A number of 64 bits: mostly of two halves from a small stock."""
    if dice.below(8) == 0:
        high = dice.below(ALL)
        return (high << 11) & ALL | dice.below(1 << 11)
    high = dice.pick(HALVES)
    return high << 32 | dice.pick(HALVES)


def draw_entry(dice, machine, most):
    """One rule, or two of one verdict with opposite conditions."""
    number, verdict = dice.pick(NUMBERS) | (LEAST_X32 if machine == "linux-x32" else 0), dice.pick(VERDICTS)
    if dice.below(2) == 0:
        place, value = dice.below(2), draw_value(dice)
        pair = dice.pick(PAIRS)
        return [(machine, number, verdict, [(place, op, value, 0)]) for op in pair]
    conditions = []
    for place in range(min(dice.pick((0, 0, 0, 1, 1, 2, 3, 6)), most)):
        op, value = dice.pick(PAIRS)[0], draw_value(dice)
        bits = value & draw_value(dice)
        conditions.append((place, op, value, bits if op == "MASKED_EQ" else 0))
    return [(machine, number, verdict, conditions)]


def draw_profile(dice, machines, entries, most):
    """The rules of a profile of some machines, or of one twice, and its default verdict: of so many entries with so many conditions
    at most. Rules that clash with earlier ones are left out. Of some calls each record meets one of two rules."""
    rules = []
    for _ in range(entries):
        for rule in draw_entry(dice, dice.pick(machines), most):
            if not any(rule[2] != other[2] and overlap(rule, other) for other in rules):
                rules.append(rule)
    return rules, dice.pick(VERDICTS)


def text_of(machines, rules, default):
    """A profile's text in the question `build`."""
    parts = [f"{machines[0]} {','.join(machines)} {default}"]
    for machine, number, verdict, conditions in rules:
        parts.append(f" {machine} {number} {verdict} {','.join(' '.join(map(str, cond)) for cond in conditions)}")
    return ";".join(parts)


def filter_of(*insns):
    """The bytes of instructions, in digits."""
    return b"".join(struct.pack("<HBBI", *insn) for insn in insns).hex()


def number_filter(rule, default):
    """The filter that answers a rule's verdict to its call, whatever the arguments are."""
    machine, number, verdict, _ = rule
    return filter_of(
        (0x20, 0, 0, 4),
        (0x15, 0, 5, TOKENS[machine]),
        (0x20, 0, 0, 0),
        (0x35, 3, 0, 0x40000000),
        (0x15, 0, 1, number),
        (0x06, 0, 0, verdict),
        (0x06, 0, 0, default),
        (0x06, 0, 0, KILL_THREAD),
    )


# The codes of conditional jumps, and of instructions that are none.
JUMPS = (0x15, 0x15, 0x15, 0x25, 0x25, 0x35, 0x35, 0x45)
OTHERS = (0x20, 0x20, 0x20, 0x54, 0x02, 0x60, 0x00, 0x04)


def random_filter(dice, default):
    """A random filter of up to eight instructions, which mostly answers this verdict."""
    insns = []
    for left in reversed(range(dice.below(8))):
        is_jump = dice.below(3) == 0
        code = dice.pick(JUMPS if is_jump else OTHERS)
        if code == 0x20:
            number = dice.pick((0, 0, 0, 4, 16, 16, 20, 24))
        else:
            number = 1 if code in (0x02, 0x60) else dice.pick(HALVES)
        taken, not_taken = min(dice.below(8), left), min(dice.below(8), left)
        insns.append((code, taken, not_taken, number))
    return filter_of(*insns, (0x06, 0, 0, default if dice.below(4) > 0 else KILL_THREAD))
