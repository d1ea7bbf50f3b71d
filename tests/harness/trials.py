"""Random profiles, made-up certificates and random scripts, of which a claim holds or the counts are told."""
from collections import Counter

from harness.ask import side_by_side
from harness.asked import build
from harness.certificates import read
from harness.changed import change, in_some_form
from harness.dice import Dice
from harness.drawn import draw_profile, number_filter, random_filter, text_of
from harness.grids import near, of_halves
from harness.library import agrees, certified, check_told, compiled, without_place
from harness.texts import is_digits

X, A = "x86-64", "aarch64"
# Lists of machines, the native one first. x32 has the token of x86-64.
L = "linux-x86-64"
LISTS = (
    *((X, X), (X, X), (X, X), (A, A), (X, A), (X, A), (A, X), (A, X)),
    *((L, "linux-x86"), (L, "linux-x32"), (L, "linux-x86", "linux-x32"), ("linux-aarch64", "linux-arm")),
    *(("linux-riscv64", L), ("linux-ppc64le", "linux-riscv64"), ("linux-loongarch64", "linux-ppc64le", "linux-x32")),
    *(("linux-s390x", "linux-s390"), ("linux-s390x", "linux-s390", "linux-aarch64")),
)

# How many certificates are made of an accepted one, and how many changes of its nodes each has.
MADE = 8
CHANGES = (0, 1, 1, 1, 1, 1, 2, 2)
# Why a certificate whose bytes are read is refused.
REFUSALS = ("no 4 Root", "no 5 Edge", "no 6 Entail", "no 7 Return", "no 8 Split")
# What is counted where the checker says yes to a filter that answers a record another verdict than the profile.
WRONG = "a yes that is wrong"


def random_profiles(seed, count):
    """Whether the filters of so many random profiles, of one to three machines and of one to twelve entries, get certificates that the
    checker takes, and answer what the profiles say."""
    dice, lines = Dice(seed), []
    for _ in range(count):
        machines = dice.pick(LISTS)
        rules, default = draw_profile(dice, machines, dice.below(12) + 1, 6)
        lines.append(build(text_of(machines, rules, default)))
    told = yield from side_by_side([try_profile(line) for line in lines])
    faults = [f"the profile {place}: {fault}" for place, fault in enumerate(told) if fault]
    return faults or [f"{count} profiles, all yes, all agree"]


def try_profile(line):
    """What is wrong with the filter of a profile, if anything is."""
    told, filtered = yield from compiled(line)
    (said,) = yield from certified(line, filtered)
    if not said.startswith("yes, "):
        return said
    (said,) = yield from agrees(line, filtered, near(told))
    return None if said == "agrees" else said


def made_up(seed, count):
    """Whether certificates made of those of random small filters get each answer, more than a fifth of them a yes, and none of them
    wrongly; else how often each answer comes."""
    seeds = Dice(seed)
    told = yield from side_by_side([try_filter(Dice(seeds.below(2**53))) for _ in range(count)])
    tally = Counter(said for answers in told for said in answers)
    if all(tally[refusal] for refusal in REFUSALS) and tally["yes"] * 5 > tally.total() and not tally[WRONG]:
        return ["each answer comes, more than a fifth are yes, none is wrong"]
    return [f"{often} {said}" for said, often in sorted(tally.items())]


def try_filter(dice):
    """The answers to certificates made of that of a random filter, if it has one."""
    machine = X if dice.below(8) < 5 else A
    rules, default = draw_profile(dice, (machine, machine), dice.pick((0, 1, 1, 1, 1, 1, 2, 2)), 1)
    line = build(text_of((machine, machine), rules, default))
    filtered = yield from draw_filter(dice, line, rules, default)
    both = [line, f"filter bytes {filtered}"]
    *_, (cert,) = yield [*both, "profile certify"]
    if not is_digits(cert):
        return []
    made = [made_of(dice, bytes.fromhex(cert)) for _ in range(MADE)]
    _, _, *told = yield [*both, *(f"profile check {data.hex()}" for data in made)]
    answers = [without_place(check_told(said)) for (said,) in told]
    if "yes" in answers:
        (said,) = yield from agrees(line, filtered, [of_halves()])
        answers += [WRONG] if said != "agrees" else []
    return answers


def draw_filter(dice, line, rules, default):
    """The bytes of a filter of up to eight instructions: one that looks at the number alone, the one that is compiled for the
    profile, or a random one."""
    choice = dice.below(4)
    if choice < 2 and rules:
        return number_filter(rules[0], default)
    if choice == 2:
        _, filtered = yield from compiled(line)
        if is_digits(filtered) and len(filtered) <= 16 * 8:
            return filtered
    return random_filter(dice, default)


def made_of(dice, cert):
    """A certificate with none, one or two changes, in one of the forms."""
    nodes = read(cert)
    for _ in range(dice.pick(CHANGES)):
        change(dice, nodes)
    return in_some_form(dice, nodes)


IDS = ("c1", "c1", "c1", "c1", "c2", "c2", "c2", "c3")
START = ("create c1 b0", "start c1", "create c2 b1", "start c2")
# Commands of a container, with its id in between.
COMMANDS = (("delete", ""), ("create", " b0"), ("create", " b1"), ("start", ""), ("start", ""), ("state", ""), ("kill", " 9"), ("kill", " 0"))
# Programs: all are let through; getpid is not; nor is a call with the argument 7; nor is anything but these: a program of a
# scratch word, which lets all through.
ALL_PASS = "060000000000ff7f"
NO_GETPID = "200000000000000015000001270000000600000002000500060000000000ff7f"
PROGRAMS = (
    ALL_PASS,
    ALL_PASS,
    "060000000000fc7f",
    NO_GETPID,
    NO_GETPID,
    "200000001000000015000001070000000600000003000500060000000000ff7f",
    "200000000000000015000001270000000600000000000000060000000000ff7f",
    "20000000000000000200000003000000600000000300000015000001660000000600000004000500060000000000ff7f",
)
LOADS = (
    "seccomp 1 0 0",
    "seccomp 1 1 0",
    "seccomp 1 1 0",
    "seccomp 1 1 0",
    "prctl 22 2 0",
    "seccomp 1 0 0",
    "seccomp 1 2 0",
    "prctl 21 2 0",
)
CALLS = ("fork", "clone 0", "clone 0x10000", "clone 0x10000", "execve", "getpid", "getpid 7", "gettid")
ENDS = ("exit 3", "exit 3", "exit_group 1", "kill 2 9", "kill 3 15", "kill 4 9", "kill 5 0", "kill 1 9")


def draw_line(dice):
    """A random line of a script: a command of a container, or a call of one of its tasks."""
    name = dice.pick(IDS)
    if dice.below(6) == 0:
        command, rest = dice.pick(COMMANDS)
        return f"{command} {name}{rest}"
    task, way = dice.below(7) + 1, dice.below(12)
    if way == 0:
        return f"call {name} {task} {dice.pick(ENDS)}"
    if way < 5:
        call = dice.pick(LOADS)
        return f"call {name} {task} {call} prog {dice.pick(PROGRAMS)}"
    return f"call {name} {task} {dice.pick(CALLS)}"


def draw_scripts(seed, count, commands):
    """So many random scripts of so many lines, each behind those that start two containers."""
    dice = Dice(seed)
    return [[*START, *(draw_line(dice) for _ in range(commands))] for _ in range(count)]
