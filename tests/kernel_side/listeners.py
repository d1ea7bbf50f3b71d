"""Listeners: two threads load filters, some with a listener, and call getppid, and what listens responds. Each answer is compared.

A container of the modelled kernel, whose own filter allows all calls of the machine, does the same: calls of the library, since what a
listener responds stands beside a call.
"""
import json

from harness.asked import record
from harness.calls import TOKENS
from kernel_side.handed import arguments_of
from kernel_side.insns import ALLOW, LD, RET, digits
from kernel_side.sides import Tally

JEQ = 0x15
ALL = json.dumps({"ociVersion": "1.0.2", "linux": {"seccomp": {"defaultAction": "SCMP_ACT_ALLOW"}}})
THREAD = 0x10000
TSYNC, NEW_LISTENER, TSYNC_ESRCH = 1, 8, 16
FLAGS = (0, 0, NEW_LISTENER, NEW_LISTENER, NEW_LISTENER, TSYNC, TSYNC | NEW_LISTENER, TSYNC | TSYNC_ESRCH, NEW_LISTENER | TSYNC_ESRCH,
         TSYNC | NEW_LISTENER | TSYNC_ESRCH)
# Verdicts on getppid that end no task: an unknown action does, where it is the strictest.
WORDS = (0x7FC00000, 0x7FC00000, 0x7FC00000, 0x50002, 0x7FF00001, 0x7FFC0000, ALLOW)
VALUES, ERRORS, TASKS = (1000000, 1000007), (1, 38, 4095), 2


def drawn_step(dice):
    """A load, or a call of getppid with what a listener responds."""
    task = dice.below(TASKS) + 1
    if dice.below(2):
        return "l", task, dice.pick(FLAGS), dice.pick(WORDS)
    kind = dice.pick("ccve")
    return "c", task, kind, dice.pick(VALUES) if kind == "v" else dice.pick(ERRORS) if kind == "e" else 0


def step_line(step):
    """A step for the real side."""
    kind, task, what, last = step
    return f"{kind}:{task:x}:{what if kind == 'c' else f'{what:x}'}:{last:x}"


def question(machine, native, step):
    """A step for the library."""
    kind, task, what, last = step
    getppid, token = machine.number("getppid"), TOKENS[native]
    if kind == "c":
        said = {"c": "continue", "v": f"value {last}", "e": f"error {last}"}[what]
        return f"kernel call c {task} {record(getppid, token)}  {said}"
    program = digits([(LD, 0, 0, 0), (JEQ, 0, 1, getppid), (RET, 0, 0, last), (RET, 0, 0, ALLOW)])
    return f"kernel call c {task} {record(machine.number('seccomp'), token, [1, what])} {program}"


def result_of(sides, step, told):
    """What an answer of the library means for a child."""
    kind, _, value = told.rstrip(")").partition("(")
    if kind == "Denied":
        return sides.came_of(int(value.removeprefix("Word(").rstrip(")")), "p")
    number = int(value)
    if kind in ("Failed", "Declined"):
        return str(-number)
    if step[0] == "c":
        return str(number) if kind == "Answered" else "p"
    if number == 0:
        return "0"
    # A number that is not 0: a task's where TSYNC alone asks for it, and else a listener's.
    return "L" if step[2] & NEW_LISTENER else f"t{number}"


def begun(machine, native):
    """The questions with which a container begins: two tasks of one group, and a filter that allows all."""
    clone = record(machine.number("clone"), TOKENS[native], [*arguments_of(machine, "clone", (THREAD,))])
    first = [f"profile bundle {native} {ALL}", "profile compile", "profile certify", "profile keep"]
    return ["kernel anew", *first], ["kernel admit c 0", f"kernel call c 1 {clone}"]


def run(sides, dice, count):
    """Tries so many lists of steps."""
    tally, machine, native = Tally("listeners"), sides.machine, sides.machine.whole
    lists = [[drawn_step(dice) for _ in range(dice.below(9) + 2)] for _ in range(count)]
    made, begin = begun(machine, native)
    asked = [*made, *(line for steps in lists for line in (*begin, *(question(machine, native, step) for step in steps)))]
    told = iter(sides.modelled(asked)[len(made) :])
    for steps, real in zip(lists, sides.real([f"listen {' '.join(map(step_line, steps))}" for steps in lists])):
        for _ in begin:
            next(told)
        # Both kernels of the model answer.
        both = [[result_of(sides, step, answer) for answer in next(told)] for step in steps]
        wanted = [" ".join(map(str, side)) for side in zip(*both)]
        for step, result in zip(steps, real.split(" ")):
            tally.see(seen(step, result))
        tally.count(wanted == [real, real], lambda: f"{steps}: the model: {wanted}, the kernel: {real}")
    return tally


def seen(step, result):
    """What a step came to."""
    if result in ("L", "p"):
        return {"L": "a listener", "p": "carried out"}[result]
    if step[0] == "c":
        return "answers" if not result.startswith("-") else "an error"
    return {"-16": "busy", "-3": "ESRCH", "-22": "EINVAL", "0": "loaded"}.get(result, "in the way")
