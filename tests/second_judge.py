"""A second judge of seccomp filters, which shares nothing with the program: what a bundle says of a call, what a filter answers
to it, and whether there is a call on which the two differ.

It is for bundles of x86-64 alone that name the calls of CALLS, and for filters of the instructions that libseccomp writes: loads
of a word, AND, JEQ, JGT, JGE, JSET and JA with a constant, RET with a constant. For these its search is exact: of each word of
the record it takes one number for each way in which the comparisons of filter and bundle can come out, and tries all of them.
"""
import struct
from itertools import product

X86_64, X32 = 0xC000003E, 0x40000000
KILL_THREAD, ALLOW = 0, 0x7FFF0000
VERDICTS = {"KILL": KILL_THREAD, "ERRNO": 0x50000, "ALLOW": ALLOW}
CALLS = {"ioctl": 16, "socket": 41, "clone": 56, "fcntl": 72, "prctl": 157}
WHOLE = 0xFFFFFFFF
LD, AND, JA, RET, JEQ, JGT, JGE, JSET = 0x20, 0x54, 0x05, 0x06, 0x15, 0x25, 0x35, 0x45
TESTS = {
    JEQ: lambda a, k: a == k,
    JGT: lambda a, k: a > k,
    JGE: lambda a, k: a >= k,
    JSET: lambda a, k: a & k != 0,
}
OPERATORS = {
    "NE": lambda u, value, _: u != value,
    "LT": lambda u, value, _: u < value,
    "LE": lambda u, value, _: u <= value,
    "EQ": lambda u, value, _: u == value,
    "GE": lambda u, value, _: u >= value,
    "GT": lambda u, value, _: u > value,
    "MASKED_EQ": lambda u, value, datum: u & value == datum,
}


def verdict_of(action, data):
    """The verdict of an action by its name: of these ERRNO alone has data, which is 1 (EPERM) where none is given."""
    name = action.removeprefix("SCMP_ACT_")
    return VERDICTS[name] | ((1 if data is None else data) if name == "ERRNO" else 0)


class Bundle:
    """What `linux.seccomp` says: the default verdict, and of each call the rules, a verdict and conditions each."""

    def __init__(self, bundle):
        said = bundle["linux"]["seccomp"]
        self.default = verdict_of(said["defaultAction"], said.get("defaultErrnoRet"))
        self.rules = {}
        for entry in said["syscalls"]:
            conditions = [
                (arg["index"], OPERATORS[arg["op"].removeprefix("SCMP_CMP_")], arg["value"], arg.get("valueTwo", 0))
                for arg in entry.get("args", [])
            ]
            for name in entry["names"]:
                rule = verdict_of(entry["action"], entry.get("errnoRet")), conditions
                self.rules.setdefault(CALLS[name], []).append(rule)

    def conditions(self):
        """All conditions of all rules."""
        return [condition for rules in self.rules.values() for _, conditions in rules for condition in conditions]

    def said(self, number, machine, holds):
        """The verdict of a call, where `holds` tells which conditions hold of it."""
        if machine != X86_64 or number >= X32:
            return KILL_THREAD
        for verdict, conditions in self.rules.get(number, []):
            if all(holds(condition) for condition in conditions):
                return verdict
        return self.default

    def decide(self, record):
        """The verdict of a call record of 64 bytes."""
        number, machine, _, *arguments = struct.unpack("<IIQ6Q", record)
        return self.said(number, machine, lambda c: c[1](arguments[c[0]], c[2], c[3]))


def instructions(filter_bytes):
    """A filter's instructions, each as its code, jt, jf and k."""
    return list(struct.iter_unpack("<HBBI", filter_bytes))


def answer(filter_bytes, record, loaded=None):
    """The verdict that a filter answers to a call record: seccomp(2), and the kernel's page on socket filters. The words that it loads
    on the way are added to a set, if one is given."""
    program, words = instructions(filter_bytes), struct.unpack("<16I", record)
    a = at = 0
    while True:
        code, jt, jf, k = program[at]
        at += 1
        if code == RET:
            return k
        if code == LD:
            a = words[k // 4]
            if loaded is not None:
                loaded.add(k // 4)
        elif code == AND:
            a &= k
        elif code == JA:
            at += k
        else:
            at += jt if TESTS[code](a, k) else jf


def targets(program, at):
    """Where an instruction may lead."""
    code, jt, jf, k = program[at]
    if code == RET:
        return []
    return [at + 1 + k] if code == JA else [at + 1 + jt, at + 1 + jf] if code in TESTS else [at + 1]


def next_a(instruction, a):
    """What A is after an instruction: a word of the record under a mask."""
    code, _, _, k = instruction
    return (k // 4, WHOLE) if code == LD else (a[0], a[1] & k) if code == AND else a


def comparisons_of_filter(program):
    """Each test that the filter may make of a word, as word, mask, code and constant."""
    found, seen, left = set(), set(), [(0, (0, 0))]
    while left:
        at, a = left.pop()
        if (at, a) in seen:
            continue
        seen.add((at, a))
        code, _, _, k = program[at]
        if code in TESTS:
            found.add((a[0], a[1], code, k))
        left += [(target, next_a(program[at], a)) for target in targets(program, at)]
    return found


def comparisons_of_bundle(bundle):
    """Each test of a word on which what the bundle says may rest: of the number, the machine, and halves of arguments."""
    found = {(0, WHOLE, JEQ, number) for number in bundle.rules} | {(0, WHOLE, JGE, X32), (1, WHOLE, JEQ, X86_64)}
    for index, operator, value, datum in bundle.conditions():
        for half in (0, 1):
            word, constant = 4 + 2 * index + half, value >> 32 * half & WHOLE
            if operator is OPERATORS["MASKED_EQ"]:
                found.add((word, constant, JEQ, datum >> 32 * half & WHOLE))
            else:
                found |= {(word, WHOLE, JEQ, constant), (word, WHOLE, JGT, constant)}
    return found


def numbers(comparisons):
    """One number of 32 bits for each way in which comparisons, each of a mask, a code and a constant, can come out. Bit by bit,
    the highest first: how the number under the mask compares so far with the constant, -1, 0 or 1, and the least such number."""
    ways = {(0,) * len(comparisons): 0}
    for bit in reversed(range(32)):
        further = {}
        for so_far, number in ways.items():
            for chosen in (0, 1):
                way = tuple(
                    so or compare(chosen & mask >> bit & 1, k >> bit & 1, code)
                    for so, (mask, code, k) in zip(so_far, comparisons)
                )
                further.setdefault(way, number | chosen << bit)
        ways = further
    return tuple(sorted(ways.values()))


def compare(bit, wanted, code):
    """How one bit compares: for an equality only whether it does, for JSET only whether both are set."""
    if code == JSET:
        return bit & wanted
    return 1 if code == JEQ and bit != wanted else bit - wanted


class Search:
    """The search for calls on which a filter and a bundle differ."""

    def __init__(self, bundle, filter_bytes):
        self.bundle, self.program = bundle, instructions(filter_bytes)
        of_word = [[] for _ in range(16)]
        for word, *comparison in comparisons_of_filter(self.program) | comparisons_of_bundle(bundle):
            of_word[word].append(comparison)
        self.numbers = tuple(numbers(comparisons) for comparisons in of_word)

    def paths(self):
        """Each verdict that the filter answers, with the numbers of each word of the record for which it does."""
        seen, left = set(), [(0, (0, 0), self.numbers)]
        while left:
            state = at, a, those = left.pop()
            if state in seen:
                continue
            seen.add(state)
            code, jt, jf, k = self.program[at]
            if code == RET:
                yield k, those
            elif code not in TESTS:
                left += [(target, next_a(self.program[at], a), those) for target in targets(self.program, at)]
            else:
                for holds, skipped in ((True, jt), (False, jf)):
                    some = tuple(n for n in those[a[0]] if TESTS[code](n & a[1], k) == holds)
                    if some:
                        left.append((at + 1 + skipped, a, those[: a[0]] + (some,) + those[a[0] + 1 :]))

    def arguments(self, those):
        """For each argument that a condition names: its index, and one value for each way in which the conditions on it can come
        out, with the conditions that hold of it."""
        for index in sorted({condition[0] for condition in self.bundle.conditions()}):
            on_it = [condition for condition in self.bundle.conditions() if condition[0] == index]
            ways = {}
            for low, high in product(those[4 + 2 * index], those[5 + 2 * index]):
                value = high << 32 | low
                held = tuple(i for i, c in enumerate(on_it) if c[1](value, c[2], c[3]))
                ways.setdefault(held, (index, value, [on_it[i] for i in held]))
            yield list(ways.values())

    def differences(self):
        """A call record of each kind of difference: the filter's verdict, the bundle's, the record."""
        told = set()
        for given, those in self.paths():
            for number, machine in product(those[0], those[1]):
                for chosen in product(*self.arguments(those)):
                    held = [condition for _, _, conditions in chosen for condition in conditions]
                    said = self.bundle.said(number, machine, lambda condition: condition in held)
                    if said != given and (given, said) not in told:
                        told.add((given, said))
                        values = [0] * 6
                        for index, value, _ in chosen:
                            values[index] = value
                        yield given, said, struct.pack("<IIQ6Q", number, machine, 0, *values)
