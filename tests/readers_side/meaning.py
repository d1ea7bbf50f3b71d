"""What a section means: the default verdict, the machines, and a set of rules; from a reader's answer, or from the text of a profile."""
import itertools
import random

from harness.places import TOP

MACHINES = ("linux-x86-64", "linux-x86", "linux-x32", "linux-aarch64", "linux-arm", "linux-riscv64", "linux-ppc64le", "linux-loongarch64",
            "linux-s390x", "linux-s390")
# By the names that runc gives them.
NAMES = {"amd64": "linux-x86-64", "x86": "linux-x86", "x32": "linux-x32", "arm64": "linux-aarch64", "arm": "linux-arm", "riscv64": "linux-riscv64",
         "ppc64le": "linux-ppc64le", "loong64": "linux-loongarch64", "loongarch64": "linux-loongarch64", "s390x": "linux-s390x",
         "s390": "linux-s390"}
NATIVE, X32 = "linux-x86-64", 0x40000000
WORDS = {"KILL": 0, "KILL_PROCESS": 0x80000000, "TRAP": 0x30000, "ERRNO": 0x50000, "TRACE": 0x7FF00000, "LOG": 0x7FFC0000, "ALLOW": 0x7FFF0000,
         "NOTIFY": 0x7FC00000}
REFUSED, OFF = "refused", "no filter"
ALL = 2**64 - 1


def numbers_of_calls():
    """The numbers of each call by machine, of docs/linux-calls.txt."""
    calls = {}
    with open(f"{TOP}/docs/linux-calls.txt", encoding="utf-8") as file:
        for line in file:
            if line.strip() and not line.startswith("#"):
                name, numbers = line.split()
                calls[name] = {machine: int(number) + (X32 if machine == "linux-x32" else 0)
                               for machine, number in zip(MACHINES, numbers.split("/")) if number != "-"}
    return calls


CALLS = numbers_of_calls()
CALLED = {(machine, number): name for name, numbers in CALLS.items() for machine, number in numbers.items()}


def word(action, errno):
    """A verdict: an action with its data, 1 where none is said."""
    return WORDS[action] | ((1 if errno is None else errno) & 0xFFFF if action in ("ERRNO", "TRACE") else 0)


def condition(index, operator, value, datum):
    """A condition. Only MASKED_EQ has a datum, of which libseccomp takes the bits under the mask."""
    return index, operator, value, datum & value if operator == "MASKED_EQ" else 0


def of_reader(answer):
    """What a reader's answer means. Names that the tables lack are passed over, and rules with the default verdict. Where an argument has
    several conditions, runc and crun make a rule of each."""
    if "error" in answer:
        return REFUSED
    if answer.get("off"):
        return OFF
    default = word(answer["default"], answer.get("errno"))
    machines = {NATIVE} | {NAMES[name] for name in answer.get("archs") or [] if name in NAMES}
    rules = set()
    for entry in answer.get("entries") or []:
        conditions = [condition(*(arg[key] for key in ("index", "op", "value", "two"))) for arg in entry["args"] or []]
        if entry["name"] == "" or any(index > 5 for index, *_ in conditions):
            return REFUSED
        several = len({index for index, *_ in conditions}) < len(conditions)
        groups = [(one,) for one in conditions] if several else [tuple(sorted(conditions))]
        verdict = word(entry["action"], entry["errno"])
        for machine, group in itertools.product(machines, groups):
            if verdict != default and machine in CALLS.get(entry["name"], ()):
                rules.add((machine, CALLS[entry["name"]][machine], verdict, group))
    return default, frozenset(machines), frozenset(rules)


def of_text(text):
    """What the text of a profile means (docs/PROFILES.md)."""
    lines = text.splitlines()
    machines, default = frozenset(lines[2].split()[1:]), int(lines[3].split()[1], 16)
    rules = set()
    for line in lines[5:]:
        machine, number, verdict, *rest = line.split()
        conditions = []
        while rest:
            index, operator, value, *rest = rest
            datum = rest.pop(0) if operator == "MASKED_EQ" else "0x0"
            conditions.append(condition(int(index[3:]), operator, int(value, 16), int(datum, 16)))
        if int(verdict, 16) != default:
            rules.add((machine, int(number), int(verdict, 16), tuple(sorted(conditions))))
    return default, machines, frozenset(rules)


def holds(asked, values):
    """Whether a condition holds of the values of arguments."""
    index, operator, value, datum = asked
    given = values[index]
    return {"NE": given != value, "LT": given < value, "LE": given <= value, "EQ": given == value, "GE": given >= value, "GT": given > value,
            "MASKED_EQ": given & value == datum}[operator]


def is_same(one, other):
    """Whether two meanings are one: the same rules, or rules that give the same verdicts to values at and beside those that they name."""
    if one == other or isinstance(one, str) or isinstance(other, str) or one[:2] != other[:2]:
        return one == other
    return all(answers_alike([rule for rule in one[2] if rule[:2] == call], [rule for rule in other[2] if rule[:2] == call])
               for call in {rule[:2] for rule in one[2] ^ other[2]})


def answers_alike(rules, others):
    """The same of the rules of one call."""
    edges, dice = [{0} for _ in range(6)], random.Random(1)
    for index, _, value, datum in (asked for rule in [*rules, *others] for asked in rule[3]):
        edges[index] |= {number & ALL for number in (value, value + 1, value - 1, datum, datum | ~value)}
    for _ in range(400):
        values = [dice.choice(sorted(some)) for some in edges]
        given = [{verdict for _, _, verdict, conditions in some if all(holds(asked, values) for asked in conditions)} for some in (rules, others)]
        if given[0] != given[1]:
            return False
    return True


def verdict_told(verdict):
    """A verdict by its name."""
    name = next(name for name, base in WORDS.items() if verdict & 0xFFFF0000 == base)
    return f"{name} {verdict & 0xFFFF}" if name in ("ERRNO", "TRACE") else name


def told(meaning):
    """A meaning as a line: the default, further machines, and the rules of the native one."""
    if isinstance(meaning, str):
        return meaning
    default, machines, rules = meaning
    further = "".join(f" +{machine.removeprefix('linux-')}" for machine in sorted(machines - {NATIVE}))
    parts = []
    for machine, number, verdict, conditions in sorted(rules):
        if machine == NATIVE:
            asked = " and ".join(f"arg{index} {operator} {value:#x}{f' {datum:#x}' if operator == 'MASKED_EQ' else ''}"
                                 for index, operator, value, datum in conditions)
            parts.append(f"{CALLED[machine, number]} {verdict_told(verdict)}{f' if {asked}' if asked else ''}")
    return verdict_told(default) + further + "".join(f"; {part}" for part in parts)
