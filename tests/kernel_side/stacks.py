"""Stacks: two to five filters on one task. The strictest verdict counts, and among equally strict ones the newest filter's.

A container of `ccell run`, whose own filter allows all calls of the machine, loads the filters and calls; a child loads the container's
filter and the same ones, and makes the same calls.
"""
import json

from kernel_side.insns import ACTIONS, ALLOW, JEQ, LD, NAMELESS, RET, digits
from kernel_side.sides import SYSCALL, Tally, case_line

ALL = json.dumps({"ociVersion": "1.0.2", "linux": {"seccomp": {"defaultAction": "SCMP_ACT_ALLOW"}}})
MOST_ARGUMENTS = 4


def filter_of(getpid, words):
    """A filter that answers `getpid` with one of these verdicts, by the lower half of its first argument, and allows all else."""
    insns = [(LD, 0, 0, 0), (JEQ, 1, 0, getpid), (RET, 0, 0, ALLOW), (LD, 0, 0, 16)]
    for place, word in enumerate(words[:-1]):
        insns += [(JEQ, 0, 1, place), (RET, 0, 0, word)]
    return digits([*insns, (RET, 0, 0, words[-1])])


def pairs():
    """All pairs of actions on a task with two filters, with the same data and with other ones."""
    every = ACTIONS + NAMELESS
    return [[[one | 5], [other | data]] for one in every for other in every for data in (5, 6)]


def drawn_stack(dice):
    """Two to five filters, oldest first, each with the verdicts of as many arguments."""
    arguments = dice.below(MOST_ARGUMENTS) + 1
    some = [dice.pick(ACTIONS + NAMELESS[:3]) for _ in range(3)]
    lenient = (0x50000, 0x7FC00000, 0x7FF00000, 0x7FFC0000, ALLOW)

    def word(place):
        # All but the last argument seldom end the task.
        action = dice.pick(some) if place == arguments - 1 or dice.below(8) == 0 else dice.pick(lenient)
        return action | dice.pick((0, 1, 2, 4095, 4096, 65535))

    return [[word(place) for place in range(arguments)] for _ in range(dice.below(4) + 2)]


def shown(stack):
    """A stack for people: the verdicts of each filter."""
    return " | ".join(" ".join(f"{word:#010x}" for word in words) for words in stack)


def result_of(sides, reply):
    """What a reply of the model means for a child: a result, or None where it ends."""
    kind, _, value = reply.partition(" ")
    if kind == "done":
        return "pid"
    return sides.came_of(int(value, 16), "pid")


def compare(sides, tally, first, stacks):
    """Loads each stack on both sides, and makes the calls."""
    lines, cases, places, getpid = [], [], [], sides.machine.number("getpid")
    for stack in stacks:
        filters = [filter_of(getpid, words) for words in stack]
        values = range(len(stack[0]))
        begin = ["create c b1", "start c", *(f"call c 1 seccomp 1 0 0 prog {filtered}" for filtered in filters)]
        places.append((len(lines), len(begin), len(values)))
        lines += [*begin, *(f"call c 1 getpid {value}" for value in values), "kill c 9", "delete c"]
        cases.append(case_line([first, *filters], [(SYSCALL, getpid, [value]) for value in values]))
    replies = sides.script(ALL, lines)
    for stack, (at, loads, calls), told in zip(stacks, places, sides.real(cases)):
        begun, said = replies[at : at + loads], replies[at + loads : at + loads + calls]
        right, right_end = [], "end"
        for reply in said:
            result = None if reply == "no task" else result_of(sides, reply)
            tally.see("the task ends" if result is None else "carried out" if result == "pid" else "answers an error")
            if result is None:
                right_end = "signal 31"
                break
            right.append(result)
        wanted = f"{','.join('0' * (len(stack) + 1))} {','.join(right) or '-'} {right_end}"
        is_right = told == wanted and begun == ["ok", "ok", *["done 0"] * len(stack)]
        tally.count(is_right, lambda: f"{shown(stack)}: the model: {begun} {said}, the kernel: {told}")


def run(sides, dice, count):
    """Tries all pairs, and so many stacks at random."""
    tally = Tally("stacks")
    first = sides.exported(sides.machine.run, ALL)
    compare(sides, tally, first, pairs())
    while count > 0:
        some = min(count, 20000)
        compare(sides, tally, first, [drawn_stack(dice) for _ in range(some)])
        count -= some
    return tally
