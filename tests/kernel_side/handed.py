"""What a task hands on: scripts of `ccell run` beside a real tree of processes and threads that does the same.

The tree stands in a PID namespace of its own, so its tasks have the model's numbers. Behind each command both sides are asked who
lives: the model by a call to each task that no filter looks at. Where Linux answers otherwise and docs/KERNEL.md says so, the answer
that it gives is worked out here.
"""
import json

from kernel_side.insns import ACTIONS, ALLOW, JEQ, LD, LD_MEM, NAMELESS, RET, digits
from kernel_side.sides import Tally

# The calls of which drawn filters answer one, of two of them twice as often, if the machine has them.
FILTERED = ("sched_yield", "sched_yield", "getpid", "getpid", "getppid", "gettid", "clone", "fork", "execve", "kill", "exit", "exit_group",
            "seccomp", "prctl")
# clone(2): CLONE_VM, CLONE_FS, CLONE_FILES, CLONE_SIGHAND and CLONE_THREAD; and a process that sends SIGCHLD.
THREAD, PROCESS = 0x10F00, 17
SECCOMP_LOAD, TSYNC, PRCTL_LOAD = 1, 1, (22, 2)
LAST_SIGNAL, ESRCH = 64, 3
MOST_TASKS = 9
ALL = json.dumps({"ociVersion": "1.0.2", "linux": {"seccomp": {"defaultAction": "SCMP_ACT_ALLOW"}}})
ORPHANS, NO_TARGET = "an orphan's parent is task 1", "kill looks for its target first"


def drawn_filter(dice, machine):
    """A filter that answers some calls with verdicts, one of them by its first argument, and allows all others."""
    name = dice.pick([name for name in FILTERED if machine.number(name) is not None])
    nr = machine.number(name)
    action = dice.pick(ACTIONS + ACTIONS + NAMELESS[:2]) if dice.below(2) else dice.pick((0x50000, 0x7FF00000, ALLOW))
    word = action | dice.pick((1, 2, 13, 4095, 5000))
    value = dice.below(3) + 1 if name == "sched_yield" else None
    begin = [(LD, 0, 0, 0)]
    if value is None:
        return digits([*begin, (JEQ, 0, 1, nr), (RET, 0, 0, word), (RET, 0, 0, ALLOW)])
    return digits([*begin, (JEQ, 0, 3, nr), (LD, 0, 0, 16), (JEQ, 0, 1, value), (RET, 0, 0, word), (RET, 0, 0, ALLOW)])


def drawn_load(dice, machine):
    """A call that loads a filter, or fails to."""
    kind = dice.below(12)
    program = drawn_filter(dice, machine)
    if kind == 0:
        return "seccomp", (SECCOMP_LOAD, dice.below(2)), ""
    if kind == 1:
        return "seccomp", (SECCOMP_LOAD, dice.below(2)), digits([(LD_MEM, 0, 0, 0), (RET, 0, 0, ALLOW)])
    if kind == 2:
        return dice.pick((("seccomp", (7, 0)), ("seccomp", (SECCOMP_LOAD, 1 << 10)), ("prctl", (9999, 0)), ("prctl", (22, 3)))) + (program,)
    if kind == 3:
        return "prctl", PRCTL_LOAD, program
    return "seccomp", (SECCOMP_LOAD, TSYNC if dice.below(2) else 0), program


def drawn_command(dice, machine, made):
    """A command for one of so many tasks, or for one that is not there: the task, the call, its arguments and the attached bytes."""
    task = dice.below(made + 1) + 1 if dice.below(10) == 0 else dice.below(made) + 1
    kind = dice.below(20)
    if kind < 5 and made < MOST_TASKS:
        forks = ("fork", ()) if machine.number("fork") is not None else ("clone", (PROCESS,))
        return task, *dice.pick((forks, ("clone", (PROCESS,)), ("clone", (THREAD,)), ("clone", (THREAD,)))), ""
    if kind < 11:
        return task, *drawn_load(dice, machine)
    if kind == 11:
        return task, "execve", (), ""
    if kind == 12:
        return task, *dice.pick((("exit", (dice.below(300),)), ("exit", (0,)), ("exit_group", (dice.below(300),)))), ""
    if kind < 15:
        return task, "kill", (dice.below(made + 2) + 1, dice.pick((9, 15, 0, 17, 65, 1000))), ""
    return task, *dice.pick((("getpid", ()), ("gettid", ()), ("getppid", ()), ("sched_yield", (dice.below(3) + 1,)))), ""


def drawn_script(dice, machine):
    """The commands of a script. Task 1 seldom ends."""
    made, commands = 1, []
    for _ in range(dice.below(30) + 10):
        command = drawn_command(dice, machine, made)
        task, name, args, _ = command
        if dice.below(8) and (task == 1 and name.startswith("exit")):
            continue
        made += name in ("fork", "clone")
        commands.append(command)
    return commands


def line_of(machine, command):
    """A command as `ccell run` reads it."""
    task, name, args, program = command
    args = arguments_of(machine, name, args)
    return " ".join(["call c", str(task), name, *map(str, args), *(["0"] * (2 - len(args)) + ["prog", program] if program else [])])


def arguments_of(machine, name, args):
    """The arguments of a call as a machine has them: clone's flags, which stand first in a command, may be its second."""
    return (*[0] * machine.flags_of_clone, *args) if name == "clone" else args


def asked_of(machine, command):
    """A command as the real side reads it."""
    task, name, args, program = command
    args = arguments_of(machine, name, args)
    numbers = [task, machine.number(name), *args, *[0] * (6 - len(args))]
    return ":".join([*(f"{number:x}" for number in numbers), *([program] if program else [])])


class Beside:
    """A script beside the model's replies: groups of tasks, and who lives behind each command."""

    def __init__(self):
        self.groups, self.live = {1: 1}, {1}

    def group_lives(self, group):
        """Whether a group has a live task."""
        return any(self.groups[task] == group for task in self.live)

    def makes(self, command, reply):
        """Keeps what a task was made by this command, if one was."""
        task, name, args, _ = command
        if name not in ("fork", "clone") or not reply.startswith("done "):
            return
        made = int(reply[5:])
        is_thread = name == "clone" and args[0] & 0x10000
        self.groups[made] = self.groups[task] if is_thread else made

    def is_thread(self, number):
        """Whether a number is that of a live task that leads no group: no target in the model, and one in Linux."""
        return number in self.live and self.groups[number] != number

    def wanted(self, sides, command, reply):
        """What Linux is to answer where the model gives this reply, and which difference is meant, if one is."""
        task, name, args, _ = command
        kind, _, value = reply.partition(" ")
        if reply == "no task":
            return "none", None
        if kind == "denied":
            return sides.came_of(int(value, 16), None) or "ended", None
        if kind == "absent":
            return "-38", None
        if kind == "failed":
            if name == "kill" and args[1] > LAST_SIGNAL and not self.group_lives(args[0]):
                return f"-{ESRCH}", NO_TARGET
            return f"-{value}", None
        if name.startswith("exit"):
            return "ended", None
        if name == "kill" and args[0] == self.groups[task] != 1 and args[1] in (9, 15):
            return "ended", None
        if name == "getppid" and int(value) and not self.group_lives(int(value)):
            return "1", ORPHANS
        return value, None


def with_probes(machine, commands):
    """The lines of a script in which each command is followed by a call to each task, and how many of these there are."""
    lines, counts, made = [], [], 1
    for command in commands:
        made += command[1] in ("fork", "clone")
        lines += [line_of(machine, command), *(f"call c {task} sched_yield" for task in range(1, made + 1))]
        counts.append(made)
    return ["create c b1", "start c", *lines, "kill c 9", "delete c"], counts


def said_of(replies, counts):
    """The reply to each command, and who lives behind it."""
    at = 2
    for count in counts:
        live = [task for task, reply in enumerate(replies[at + 1 : at + 1 + count], 1) if reply == "done 0"]
        yield replies[at], live
        at += 1 + count


def right_answers(sides, commands, said):
    """The commands that are carried out on the real side, with the answer that is wanted of each and the difference that is meant.
    What the model and Linux do to different tasks, a signal for a thread, is left out: in the model nothing comes of it."""
    beside = Beside()
    for command, (reply, live) in zip(commands, said):
        is_left_out = command[1] == "kill" and beside.is_thread(command[2][0]) and reply.split()[0] in ("failed", "done")
        if not is_left_out:
            right, named = beside.wanted(sides, command, reply)
            yield command, f"{right} {','.join(map(str, live)) or '-'}", named
        beside.makes(command, reply)
        beside.live = set(live)


def compare(sides, tally, scripts):
    """Has scripts carried out by both."""
    first = sides.exported(sides.machine.run, ALL)
    probed = [with_probes(sides.machine, commands) for commands in scripts]
    replies = sides.script(ALL, [line for lines, _ in probed for line in lines])
    at, rights = 0, []
    for commands, (lines, counts) in zip(scripts, probed):
        rights.append([*right_answers(sides, commands, said_of(replies[at : at + len(lines)], counts))])
        at += len(lines)
    asked = [f"tree {first} {';'.join(asked_of(sides.machine, command) for command, _, _ in right)}" for right in rights]
    for right, told in zip(rights, sides.real(asked)):
        if told in ("no namespace", "no /proc"):
            tally.untried = [f"all of it: {told} for a tree of tasks"]
            continue
        compare_answers(sides.machine, tally, right, told.split(";"))


def kind_of(command, wanted):
    """What a command came to, for the counts."""
    _, name, args, _ = command
    told = wanted.split()[0]
    if told in ("none", "ended"):
        return {"none": "no task", "ended": "the task ends"}[told]
    if name in ("seccomp", "prctl"):
        what = "TSYNC" if name == "seccomp" and args[1] == TSYNC else "load"
        return what if told == "0" else f"{what} fails"
    return name if not told.startswith("-") else f"{name} fails"


def compare_answers(machine, tally, right, answers):
    """Compares the answers of a script, up to the first that differs."""
    for place, (command, wanted, named) in enumerate(right):
        told = answers[place] if place < len(answers) else "nothing"
        is_right = told == wanted
        tally.see(kind_of(command, wanted))
        if named and is_right:
            tally.name(named)
        tally.count(is_right, lambda: f"{[line_of(machine, it) for it, _, _ in right[: place + 1]]}: wanted {wanted}, the kernel: {told}")
        if not is_right:
            return


def run(sides, dice, count):
    """Tries so many random scripts. A case is a command."""
    tally = Tally("what a task hands on")
    while count > 0:
        some = min(count, 500)
        compare(sides, tally, [drawn_script(dice, sides.machine) for _ in range(some)])
        count -= some
    return tally
