"""Questions to `ask` and its answers, from and to the texts of rows."""
import re

from harness.calls import DEBUG_NAMES as MACHINES, TOKENS
from harness.rows import Fault
from harness.texts import number

# The names of operators in answers, and in questions, where they stand by their places.
OPS = {"Ne": "NE", "Lt": "LT", "Le": "LE", "Eq": "EQ", "Ge": "GE", "Gt": "GT", "MaskedEq": "MASKED_EQ"}
PLACES = {name: place for place, name in enumerate(OPS.values())}
RULE = re.compile(r"Rule \{ arch: (\w+), nr: (\d+), conds: \[(.*)\], word: Word\((\d+)\) \}")
COND = re.compile(r"Cond \{ index: (\d+), op: (\w+), value: (\d+), datum: (\d+) \}")


def machine(name):
    """A machine by its name."""
    if name not in TOKENS:
        raise Fault(f"no machine {name}")
    return name


def token(text):
    """A machine's token, by its name or as a number."""
    return TOKENS[text] if text in TOKENS else number(text)


def record(nr, arch, args=(), pointer=0):
    """A record."""
    return " ".join(map(str, (nr, arch, pointer, *args, *[0] * (6 - len(args)))))


def record_of(text, pointer="0"):
    """The record of the call `NUMBER MACHINE ARGUMENT ..`."""
    nr, arch, *args = text.split()
    return record(number(nr), token(arch), [number(arg) for arg in args], number(pointer))


def rule(text):
    """The rule `MACHINE NUMBER VERDICT CONDITIONS`, where conditions are `INDEX OP VALUE DATUM` with commas between."""
    arch, nr, verdict, *rest = text.split(" ", 3)
    conds = [part.split() for part in "".join(rest).split(",") if part.strip()]
    told = [machine(arch), number(nr), number(verdict), len(conds)]
    for index, op, value, *datum in conds:
        told += [number(index), PLACES[op], number(value), number(datum[0]) if datum else 0]
    return " ".join(map(str, told))


def build(text):
    """What makes the profile `NATIVE MACHINE,.. VERDICT; RULE; ..`."""
    head, *rules = [part.strip() for part in text.split(";")]
    native, names, default = head.split()
    archs, rules = names.split(","), [rule(part) for part in rules if part]
    told = [machine(native), number(default), len(archs), *map(machine, archs), len(rules), *rules]
    return f"profile build {' '.join(map(str, told))}"


def is_profile(answer):
    """Whether an answer is the parts of a profile, and not why there is none."""
    return answer[0] in MACHINES


def parts_of(answer):
    """The parts of a profile as rows have them, or why there is none."""
    if not is_profile(answer):
        return answer
    native, archs, default, *rules = answer
    named = " ".join(MACHINES[name] for name in archs.strip("[]").split(", "))
    return [f"native {MACHINES[native]}, machines {named}, default {default}", *map(rule_told, rules)]


def rule_told(text):
    """A rule as rows have it."""
    arch, nr, conds, verdict = RULE.fullmatch(text).groups()
    told = [cond_told(*cond) for cond in COND.findall(conds)]
    return f"{MACHINES[arch]} {nr} {int(verdict):#010x}{','.join(told)}"


def cond_told(index, op, value, datum):
    """A condition as rows have it, behind a space."""
    told = f" {index} {OPS[op]} {int(value):#x}"
    return f"{told} {int(datum):#x}" if op == "MaskedEq" else told


def optional(text, told):
    """What is told of a value that may be there, where it is, and None."""
    return None if text == "None" else told(text.removeprefix("Some(").removesuffix(")"))


def effect_told(ends, errno, is_carried_out):
    """What becomes of a call with a verdict."""
    said = {"Nothing": "", "Task": ", the task ends", "Group": ", the group ends"}[ends]
    answered = optional(errno, str)
    if answered is not None:
        return f"not carried out, answers {answered}{said}"
    return f"{'carried' if is_carried_out == 'true' else 'not carried'} out{said}"


# Refusals of the runtime, with the numbers by which the program tells them.
REFUSALS = ("IdTaken", "NoContainer", "NotCreated", "NotAlive", "NotStopped", "BadSignal", "StartDenied", "BadId")


def verdict_in(text):
    """The verdict in the text of a value that ends in it."""
    return f"{int(re.search(r'Word[(]([0-9]+)[)]', text)[1]):#010x}"


def outcome_told(text):
    """What became of a call."""
    kind, _, value = text.partition("(")
    if kind == "Denied":
        return f"denied {verdict_in(text)}"
    words = {"Done": "done", "Failed": "failed", "Answered": "answered", "Declined": "declined"}
    return f"{words[kind]} {value[:-1]}" if kind in words else {"Absent": "absent", "NoTask": "no task"}[kind]


def reply_told(text):
    """The reply to a command."""
    kind, _, value = text.partition("(")
    value = value.removesuffix(")")
    if kind == "Presented":
        return outcome_told(value)
    if kind == "Refused":
        name = value.partition("(")[0]
        denied = f" {verdict_in(value)}" if name == "StartDenied" else ""
        return f"refused {REFUSALS.index(name) + 1} {name}{denied}"
    return {"Accepted": "ok"}.get(kind) or value.lower()


TASK = re.compile(r"TaskView \{ group: (\d+), parent: (\d+), images: (\d+), filters: (\d+), end: (.*) \}")


def task_told(text):
    """What is shown of a task."""
    return optional(text, shown) or "none"


def shown(text):
    """What is shown of a task that there is."""
    group, parent, images, filters, end = TASK.fullmatch(text).groups()
    ended = re.fullmatch(r"Some\((\w+)\((\d+)\)\)", end)
    said = f"{ended[1].lower()} {ended[2]}" if ended else "live"
    return f"group {group}, parent {parent}, images {images}, filters {filters}, {said}"
