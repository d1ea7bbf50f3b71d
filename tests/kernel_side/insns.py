"""Filter programs as lists of instructions, each a code, `jt`, `jf` and `k`, and those that are drawn."""
import struct

LD, LDI, LDX, RET, RET_A, JA, TAX, TXA, NEG = 0x20, 0x00, 0x01, 0x06, 0x16, 0x05, 0x07, 0x87, 0x84
LD_MEM, LDX_MEM, ST, STX = 0x60, 0x61, 0x02, 0x03
JEQ = 0x15
JUMPS_K, JUMPS_X = (0x15, 0x25, 0x35, 0x45), (0x1D, 0x2D, 0x3D, 0x4D)
JUMPS = JUMPS_K + JUMPS_X
ALU_K, ALU_X, SHIFTS = (0x04, 0x14, 0x44, 0x54, 0xA4), (0x0C, 0x1C, 0x4C, 0x5C, 0xAC), (0x64, 0x74)
SCRATCH = (LD_MEM, LDX_MEM, ST, STX)
LISTED = (LD, LDI, LDX, RET, RET_A, JA, TAX, TXA, NEG, *SCRATCH, *JUMPS, *ALU_K, *ALU_X, *SHIFTS)
# What a real kernel takes besides: products, quotients, shifts by X, and the length of the record, as A and as X. By which
# instruction of the model such a one is replaced, to ask for the rest of the program. (`/ #0` is refused.)
MUL_K, MUL_X, DIV_K, DIV_X, LSH_X, RSH_X, LEN, LENX = 0x24, 0x2C, 0x34, 0x3C, 0x6C, 0x7C, 0x80, 0x81
UNLISTED = {MUL_K: 0x04, MUL_X: 0x0C, DIV_K: 0x04, DIV_X: 0x0C, LSH_X: 0x0C, RSH_X: 0x0C, LEN: LDI, LENX: LDX}
EDGES = (0, 1, 2, 3, 4, 7, 8, 15, 16, 31, 32, 33, 60, 63, 64, 65, 68, 255, 256, 4095, 4096, 2**31 - 1, 2**31, 2**32 - 4, 2**32 - 1)
ACTIONS = (0x80000000, 0, 0x30000, 0x50000, 0x7FC00000, 0x7FF00000, 0x7FFC0000, 0x7FFF0000)
# Actions without a name: the ones beside those with one, the least and the greatest.
NAMELESS = (0x10000, 0x20000, 0x40000, 0x60000, 0x7FFE0000, 0x7FF10000, 0x80010000, 0x90000000, 0xFFFF0000)
ALLOW = 0x7FFF0000


def digits(program):
    """The bytes of a program, in digits."""
    return b"".join(struct.pack("<HBBI", *insn) for insn in program).hex()


def turned(filtered):
    """A filter of a big-endian machine with the lowest byte of a number first: instead of a half of a number of 64 bits, which stand at 8 to
    63 of a record, it loads the other one."""
    program = [*struct.iter_unpack(">HBBI", filtered)]
    return bytes.fromhex(digits((code, jt, jf, k ^ 4 if code == LD and 8 <= k < 64 and k % 4 == 0 else k) for code, jt, jf, k in program))


def verdict(dice):
    """A verdict, mostly with an action that has a name."""
    action = dice.pick(NAMELESS) if dice.below(8) == 0 else dice.pick(ACTIONS)
    return action | dice.pick((0, 1, 2, 38, 4095, 4096, 65535, dice.below(65536)))


def number(dice):
    """A number of 32 bits, often one at an end of something."""
    return dice.pick(EDGES) if dice.below(2) else dice.below(2**32)


def drawn_insn(dice, left, words, numbers):
    """An instruction with `left` more behind it, which the check takes, scratch words aside: it loads of these words, and compares
    with these numbers."""
    kind = dice.below(16) if left else 16
    if kind < 4:
        return LD, 0, 0, 4 * dice.pick(words)
    if kind < 9:
        far = min(left, 256)
        code = dice.pick(JUMPS) if dice.below(3) == 0 else dice.pick(JUMPS_K)
        return code, dice.below(far), dice.below(far), dice.pick(numbers)
    if kind == 9:
        return (JA, 0, 0, dice.below(left)) if dice.below(2) else (dice.pick((LDI, LDX)), 0, 0, dice.pick(numbers))
    if kind == 10:
        return dice.pick(ALU_K + ALU_X), 0, 0, dice.pick(numbers)
    if kind == 11:
        return dice.pick((TAX, TXA, NEG)), 0, 0, 0
    if kind == 12:
        return dice.pick(SHIFTS), 0, 0, dice.below(32)
    if kind < 15:
        return dice.pick(SCRATCH), 0, 0, dice.below(16 if dice.below(4) == 0 else 2)
    return (RET_A, 0, 0, 0) if dice.below(8) == 0 else (RET, 0, 0, verdict(dice))


def drawn(dice, length, words=tuple(range(16)), numbers=EDGES):
    """A program of a length that the check takes, scratch words aside."""
    return [drawn_insn(dice, length - 1 - at, words, numbers) for at in range(length)]


def without_scratch(dice, program):
    """A program whose instructions on scratch words are others."""
    return [(dice.pick((TAX, TXA, NEG)), 0, 0, 0) if insn[0] in SCRATCH else insn for insn in program]


def replaced(program):
    """A program in which each instruction that the kernel takes and the model does not is one of the model's."""
    return [(UNLISTED[code], jt, jf, 0) if code in UNLISTED else (code, jt, jf, k) for code, jt, jf, k in program]


def reads_in_code_order(program):
    """Whether the kernel's check of scratch words refuses a program: it goes through the code in order, and takes what was written at
    the instruction before as written here, also where that one returns; behind a jump it takes all as written, and at the target of a
    jump no more than was written where it jumped."""
    at_target, written = [0xFFFF] * len(program), 0
    for at, (code, jt, jf, k) in enumerate(program):
        written &= at_target[at]
        if code in (ST, STX):
            written |= 1 << k
        elif code in (LD_MEM, LDX_MEM):
            if not written >> k & 1:
                return True
        elif code == JA or code in JUMPS:
            for far in (k,) if code == JA else (jt, jf):
                at_target[at + 1 + far] &= written
            written = 0xFFFF
    return False
