"""How long a filter is, and the paths through it."""
import struct

RETURN, JUMP = 0x06, 0x05
AND, LOAD = 0x54, 0x20
# What each conditional jump asks of A and its number.
BRANCHES = {
    0x15: lambda a, k: a == k,
    0x25: lambda a, k: a > k,
    0x35: lambda a, k: a >= k,
    0x45: lambda a, k: a & k != 0,
}


def insns_of(digits):
    """The instructions `(CODE, TAKEN, NOT TAKEN, NUMBER)` of a filter's bytes in digits."""
    return [*struct.iter_unpack("<HBBI", bytes.fromhex(digits))]


def longest_path(insns):
    """How many instructions are on the longest path. Each jump goes forward."""
    lengths = {}
    for at, (code, taken, not_taken, number) in reversed([*enumerate(insns)]):
        if code == RETURN:
            ways = []
        elif code == JUMP:
            ways = [number]
        else:
            ways = [taken, not_taken] if code in BRANCHES else [0]
        lengths[at] = 1 + max((lengths[at + 1 + way] for way in ways), default=0)
    return lengths[0]


def steps(insns, words):
    """How many instructions are run on a record with these words and 0 for all others."""
    at, count, a = 0, 0, 0
    while True:
        code, taken, not_taken, number = insns[at]
        at, count = at + 1, count + 1
        if code == RETURN:
            return count
        if code == JUMP:
            at += number
        elif code == LOAD:
            a = words.get(number // 4, 0)
        elif code == AND:
            a &= number
        else:
            at += taken if BRANCHES[code](a, number) else not_taken


def figures(digits, calls):
    """The lines that tell how many instructions a filter has, how many its longest path, and how many are run on a call, as the mean
    over these calls `(NUMBER, TOKEN)`; and which verdict has two returns, where one has."""
    insns = insns_of(digits)
    mean = sum(steps(insns, {0: number, 1: token}) for number, token in calls) * 100 // max(len(calls), 1)
    verdicts = [number for code, _, _, number in insns if code == RETURN]
    twice = [verdict for at, verdict in enumerate(verdicts) if verdict in verdicts[:at]]
    yield f"{len(insns)} instructions, longest path {longest_path(insns)}, mean path {mean // 100}.{mean % 100:02}"
    if twice:
        yield f"two returns of {twice[0]:#010x}"
