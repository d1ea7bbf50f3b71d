"""The verdict: what comes of a call under a filter is what the model says of the filter's verdict on its record.

The calls do no harm: numbers that no call has, calls on descriptors that are not open, and questions for one's own number. They come
by each way of the machine and by x32's numbers, with whatever arguments. What comes of a call that is carried out is asked of a
child without a filter.
"""
import functools
import glob
import json

from harness.asked import record
from harness.places import TOP
from kernel_side.insns import LD, SCRATCH, ST, STX, digits, drawn
from kernel_side.sides import INT80, SYSCALL, Fault, Tally, case_line

# Calls whose result is the same whatever their arguments are, if the first one is no open descriptor.
NAMED = ("read", "write", "close", "lseek", "dup", "getpid", "fcntl", "fchmod", "gettid")
NO_CALLS = (500, 1000, 0x3FFFFFFF, 0x80000000, 0xFFFFFFFE, 0xFFFFFFFF)
X32 = 0x40000000
NOT_OPEN = (1000, 1001, 65535, 0x7FFFFFFF, 0x80000000, 0xFFFFFFFF)
HALVES = (0, 1, 2, 7, 255, 0x7FFFFFFF, 0x80000000, 0xFFFFFFFF)
OPERATORS = ("NE", "LT", "LE", "EQ", "GE", "GT", "MASKED_EQ")
SCMP_ACTIONS = ("ALLOW", "ALLOW", "LOG", "ERRNO", "TRACE", "NOTIFY", "TRAP", "KILL", "KILL_THREAD", "KILL_PROCESS")


@functools.cache
def numbers_of(machine):
    """The numbers that calls have, by the way in which they come: calls of the machine, and such as it has not."""
    every = {}
    for place, (way, _) in enumerate(machine.ways):
        own = tuple(machine.number(name, place) for name in NAMED)
        every[way] = (*own, *NO_CALLS, *(machine.further if place == 0 else (X32,)))
    return every


def drawn_call(dice, machine):
    """A call: its way, its number and its arguments. A machine's second way has a third of them."""
    every = numbers_of(machine)
    first = dice.pick(HALVES) << 32 | dice.pick(NOT_OPEN)
    args = [first, *(dice.pick(HALVES) << 32 | dice.pick(HALVES) for _ in range(5))]
    way = INT80 if dice.below(3) == 0 and INT80 in every else SYSCALL
    return way, dice.pick(every[way]), [arg % 2**machine.bits for arg in args]


class Records:
    """The records that the kernel presents: at which addresses calls are made, and what comes of them where nothing refuses them."""

    def __init__(self, sides):
        self.sides, self.machine = sides, sides.machine
        self.every = numbers_of(self.machine)
        told = [part.split(":") for part in sides.real(["ways"])[0].split()]
        self.behind = {way: int(place, 16) for way, place in told}
        by_arguments = [self.machine.number(name) for name in self.machine.by_arguments]
        asked = [(way, nr) for way, numbers in self.every.items() for nr in numbers if nr not in by_arguments]
        told = sides.real([case_line([], [(way, nr, [NOT_OPEN[-1]])]) for way, nr in asked])
        self.free = {call: came_free(line) for call, line in zip(asked, told)}

    def has(self, name, place):
        """Whether this kernel carries out a machine's calls: whether this one answers the number of the child."""
        return self.free[self.machine.ways[place][0], self.machine.number(name, place)] == "pid"

    def lacks(self):
        """What of these calls this kernel has not, of those that it may have beside its own."""
        if INT80 in self.every and not self.has("getpid", 1):
            yield "calls of x86 that are carried out: this kernel has none"
        if SYSCALL in self.every and self.free.get((SYSCALL, X32 | 39)) not in (None, "pid") and self.machine.name == "x86-64":
            yield "calls of x32 that are carried out: this kernel has none; filters judge them as any other"

    def of(self, call):
        """The record of a call, as `ask` reads it."""
        way, nr, args = call
        return record(nr % 2**self.machine.number_bits, self.machine.token(way), args, self.behind[way])

    def numbers(self):
        """Numbers that filters compare with: halves, calls, tokens and addresses."""
        places = [half for place in self.behind.values() for half in (place & 0xFFFFFFFF, place >> 32)]
        calls = [nr for numbers in self.every.values() for nr in numbers]
        return (*HALVES, *NOT_OPEN, *calls, *(self.machine.token(way) for way in self.every), *places)


def came_free(line):
    """What came of a call that nothing refuses, by the answer to a case of it alone: its result, or the child's end."""
    _, results, end = line.split(" ", 2)
    return end if results == "-" else results


def drawn_filter(dice, numbers):
    """A random filter that the kernel takes. Its two scratch words are written first."""
    length = dice.below(24) + 2
    body = [(code, jt, jf, k % 2 if code in SCRATCH else k) for code, jt, jf, k in drawn(dice, length, (*range(16), 0, 1, 4, 4), numbers)]
    return digits([(LD, 0, 0, 4 * dice.below(16)), (ST, 0, 0, 0), (STX, 0, 0, 1), *body])


def drawn_condition(dice, index):
    """A condition on an argument."""
    value, op = dice.pick(HALVES) << 32 | dice.pick(HALVES + NOT_OPEN), dice.pick(OPERATORS)
    datum = {"valueTwo": value & dice.pick(HALVES)} if op == "MASKED_EQ" else {}
    return {"index": index, "op": f"SCMP_CMP_{op}", "value": value, **datum}


def drawn_bundle(dice, machine):
    """A bundle over the calls, with an entry of at most six conditions for most of them."""
    entries = []
    for name in NAMED:
        if dice.below(3) == 0:
            continue
        action = f"SCMP_ACT_{dice.pick(SCMP_ACTIONS)}"
        entry = {"names": [name], "action": action}
        if action in ("SCMP_ACT_ERRNO", "SCMP_ACT_TRACE"):
            entry["errnoRet"] = dice.pick((0, 1, 13, 38, 4095))
        args = [drawn_condition(dice, index) for index in range(6) if dice.below(4) == 0]
        entries.append({**entry, **({"args": args} if args else {})})
    machines = [machine.listed, *(name for name in machine.besides if dice.below(2))]
    section = {"defaultAction": f"SCMP_ACT_{dice.pick(SCMP_ACTIONS)}", "architectures": machines, "syscalls": entries}
    return json.dumps({"ociVersion": "1.0.2", "linux": {"seccomp": section}})


def of_others():
    """Filters that libseccomp and engines made, in digits."""
    with open(f"{TOP}/tests/libseccomp.pairs", encoding="utf-8") as file:
        made = [line.split()[1] for line in file if line.startswith("filter ")]
    for path in sorted(glob.glob(f"{TOP}/examples/*/*.bpf")):
        with open(path, "rb") as file:
            made.append(file.read().hex())
    return made


def compare(records, tally, cases):
    """Has cases carried out, each a filter and its calls."""
    sides = records.sides
    asked = []
    for filtered, calls in cases:
        asked += [f"filter bytes {filtered}", *(f"filter run {records.of(call)}" for call in calls)]
    said, came = iter(sides.modelled(asked)), sides.real([case_line([filtered], calls) for filtered, calls in cases])
    ask_sockets_free(records, [call for _, calls in cases for call in calls])
    for (filtered, calls), told in zip(cases, came):
        next(said)
        words = [next(said) for _ in calls]
        loads, results, end = told.split(" ", 2)
        right, right_end = [], "end"
        for (way, nr, args), (word, *_) in zip(calls, words):
            if not word.startswith("0x"):
                raise Fault(f"no filter that the model takes: {filtered}, {word}")
            free = records.free.get((way, nr)) or records.free[way, nr, tuple(args)]
            result = sides.came_of(int(word, 16), free)
            tally.see("the task ends" if result is None else "carried out" if result == free else "answers an error")
            if result is None or result.startswith("signal "):
                right_end = result or "signal 31"
                break
            right.append(result)
        is_right = (loads, results, end) == ("0", ",".join(right) or "-", right_end)
        tally.count(is_right, lambda: f"{case_line([filtered], calls)}: the model: {words}, {right}, {right_end}; the kernel: {told}")


def ask_sockets_free(records, calls):
    """Asks what comes of calls of `socket` that nothing refuses: of those of which it is not known."""
    keys = dict.fromkeys((way, nr, tuple(args)) for way, nr, args in calls if (way, nr) not in records.free)
    asked = [key for key in keys if key not in records.free]
    told = records.sides.real([case_line([], [key]) for key in asked])
    records.free |= {key: came_free(line) for key, line in zip(asked, told)}


def drawn_case(dice, machine, filtered):
    """A filter with some calls."""
    return filtered, [drawn_call(dice, machine) for _ in range(dice.below(3) + 1)]


def others_case(dice, machine, filtered):
    """A filter of others with a call that opens a socket, or with calls as above."""
    if dice.below(2):
        return drawn_case(dice, machine, filtered)
    args = [dice.pick((0, 0, 1, 3)) << 32 | dice.pick((1, 2, 16, 45, 0xFFFF)) for _ in range(3)]
    return filtered, [(SYSCALL, machine.number("socket"), [arg % 2**machine.bits for arg in args])]


def run(sides, dice, count):
    """Tries so many cases: a fifth of them on filters of ours and as many on those of others."""
    tally, machine = Tally("verdict"), sides.machine
    records = Records(sides)
    tally.untried += records.lacks()
    bundles = (drawn_bundle(dice, machine) for _ in range(min(400, count // 100 + 10)))
    ours = [made for made in (sides.exported(machine.whole, bundle) for bundle in bundles) if made]
    numbers, others = records.numbers(), of_others()
    while count > 0:
        some = min(count, 20000)
        cases = [drawn_case(dice, machine, dice.pick(ours)) for _ in range(some // 5)]
        cases += [others_case(dice, machine, dice.pick(others)) for _ in range(some // 5)]
        cases += [drawn_case(dice, machine, drawn_filter(dice, numbers)) for _ in range(some - len(cases))]
        compare(records, tally, cases)
        count -= some
    return tally
