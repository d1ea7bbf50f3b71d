"""The check: programs are offered to the kernel and to the library, and both take a program or none does.

The kernel tells one error, EINVAL, whatever is wrong. So for one cause a fault is planted into a program that both take: the kernel
refuses it, and the library names that cause at that place.
"""
from harness.asked import record
from kernel_side.insns import (
    DIV_K, EDGES, JA, JUMPS, LD, LD_MEM, LDX_MEM, LISTED, RET, SCRATCH, SHIFTS, UNLISTED, ALLOW, digits, drawn, number,
    reads_in_code_order, replaced, without_scratch,
)
from kernel_side.sides import Tally, case_line

TAKEN, REFUSED = "0", "-22"
LENGTHS = (0, 1, 2, 4095, 4096, 4097)
# Codes that neither side takes.
NO_CODES = [*(code for code in range(256) if code not in LISTED and code not in UNLISTED), 0x120, 0x8006, 0xFFFF]
BESIDES = "it takes products, quotients, shifts by X and the record's length"
IN_ORDER = "it looks at scratch words in code order"


def planted(dice):
    """A program that both take, and the same with one fault: with the cause that is to be named, and the place."""
    length = dice.below(12) + 2
    program = without_scratch(dice, drawn(dice, length - 1)) + [(RET, 0, 0, ALLOW)]
    at = dice.below(length)
    left = length - 1 - at
    faults = [
        ("1 Code", (dice.pick(NO_CODES), 0, 0, dice.pick((0, 1, 4)))),
        ("2 Load", (LD, 0, 0, dice.pick((1, 2, 3, 5, 61, 62, 63, 64, 68, 2**31, 2**32 - 4)))),
        ("2 Load", (dice.pick(SCRATCH), 0, 0, dice.pick((16, 17, 255, 2**31, 2**32 - 1)))),
        ("3 Shift", (dice.pick(SHIFTS), 0, 0, dice.pick((32, 33, 64, 2**31, 2**32 - 1)))),
        ("4 Target", (JA, 0, 0, dice.pick((left, left + 1, 2**31, 2**32 - 1 - at, 2**32 - 1)))),
        ("4 Target", (dice.pick(JUMPS), min(left + dice.below(2), 255), 0, 0)),
        ("4 Target", (dice.pick(JUMPS), 0, min(left + dice.below(200), 255), 0)),
        ("6 Scratch", (dice.pick((LD_MEM, LDX_MEM)), 0, 0, dice.below(16))),
    ]
    cause, insn = dice.pick(faults)
    if cause == "6 Scratch":
        # Each path comes here: the ones before do not jump or return.
        program[:at] = [(LD, 0, 0, 4 * dice.below(16)) for _ in range(at)]
    if left == 0 and cause not in ("1 Code", "4 Target"):
        cause, insn = "5 End", (LD, 0, 0, 0)
    return program, program[:at] + [insn] + program[at + 1 :], f"{cause} pc {at}"


def hostile(dice):
    """A program of codes, places and numbers that do not fit, of any length."""
    kind = dice.below(40)
    if kind == 0:
        length = dice.pick(LENGTHS)
        program = without_scratch(dice, drawn(dice, length))
        return [(RET, 0, 0, 0)] * length if dice.below(2) else program
    program = drawn(dice, dice.below(20) + 1)
    if kind < 16:
        return program
    for _ in range(dice.below(3) + 1):
        at = dice.below(len(program))
        code, jt, jf, k = program[at]
        which = dice.below(6)
        if which == 0:
            code = dice.pick(LISTED + tuple(UNLISTED)) if dice.below(4) else dice.below(65536)
        elif which == 1:
            jt = dice.below(256) if dice.below(2) else len(program) - 1 - at + dice.below(2)
        elif which == 2:
            jf = dice.below(256) if dice.below(2) else len(program) - 1 - at + dice.below(2)
        elif which == 3:
            code, k = dice.pick(tuple(UNLISTED)), dice.pick(EDGES)
        else:
            k = number(dice) if dice.below(2) else (len(program) - 2 - at + dice.below(3)) % 2**32
        program[at] = code, jt % 256, jf % 256, k
    return program


def of_codes(codes):
    """Programs of an instruction of each code and a return: with 0, which is no divisor, and with 4, which is one, a shift, and a place of
    a record."""
    return [[(code, 0, 0, k), (RET, 0, 0, ALLOW)] for code in codes for k in (0, 4)]


def wanted(program, said):
    """What the kernel is to answer to a program, by what the library says of it, and the difference that docs/KERNEL.md names, if there
    is one. What is said is said of the program in which the kernel's further instructions are replaced."""
    if said != "taken":
        return REFUSED, None
    if any(code == DIV_K and k == 0 for code, _, _, k in program):
        return REFUSED, None
    if reads_in_code_order(program):
        return REFUSED, IN_ORDER
    return TAKEN, BESIDES if any(code in UNLISTED for code, *_ in program) else None


def said_of(sides, programs):
    """What the library says of each program: `taken`, or its refusal."""
    lines = [line for program in programs for line in (f"filter bytes {digits(program)}", f"filter run {record(0, 0)}")]
    return ["taken" if len(told) == 3 else told[0] for told in sides.modelled(lines)[1::2]]


def compare(sides, tally, programs):
    """Offers programs to both."""
    said = said_of(sides, [replaced(program) for program in programs])
    came = [told.split()[0] for told in sides.real([case_line([digits(program)], []) for program in programs])]
    for program, one, other in zip(programs, said, came):
        right, named = wanted(program, one)
        if named and right == other:
            tally.name(named)
        tally.see(one.partition(" pc")[0])
        tally.count(right == other, lambda: f"{digits(program)}: the model: {one}, the kernel: {other}")


def compare_planted(sides, tally, triples):
    """Offers each program without its fault and with it."""
    clean, marred = [one for one, _, _ in triples], [other for _, other, _ in triples]
    said = zip(said_of(sides, clean), said_of(sides, marred))
    lines = [case_line([digits(program)], []) for pair in zip(clean, marred) for program in pair]
    came = [told.split()[0] for told in sides.real(lines)]
    for (_, program, cause), (clean_said, marred_said), *both in zip(triples, said, came[::2], came[1::2]):
        is_right = (clean_said, marred_said) == ("taken", cause) and both == [TAKEN, REFUSED]
        tally.see(f"planted {cause.partition(' pc')[0]}")
        tally.count(is_right, lambda: f"{digits(program)}: wanted {cause}, the model: {marred_said}, the kernel: {both}")


def run(sides, dice, count, codes):
    """Tries so many programs, and an instruction of each of these codes."""
    tally = Tally("check")
    compare(sides, tally, of_codes(codes))
    whole = count
    while count > 0:
        some = min(count, 20000)
        triples = [planted(dice) for _ in range(some // 3)]
        compare_planted(sides, tally, triples)
        compare(sides, tally, [hostile(dice) for _ in range(some - len(triples))])
        count -= some
    # Lengths at their ends, whatever was drawn.
    compare(sides, tally, [[(RET, 0, 0, 0)] * length for length in LENGTHS] if whole else [])
    return tally
