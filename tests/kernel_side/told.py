"""Sentences of docs/KERNEL.md on what Linux does otherwise, or besides: each is tried by itself."""
import json

from kernel_side.handed import PROCESS, THREAD, arguments_of
from kernel_side.insns import ALLOW, JEQ, LD, RET, digits
from kernel_side.machines import ARM, S390, S390X, X86_64
from kernel_side.sides import INT80, SYSCALL, Tally, case_line

ALL, KILL = digits([(RET, 0, 0, ALLOW)]), digits([(RET, 0, 0, 0x80000000)])
TSYNC_AND_ESRCH = 0x11
NO_CALL = "- -38 end"
# Filters of one instruction that a task of the model may have: each counts for 5, and the last for 1.
MODEL_LIMIT = (32768 - 1) // 5 + 1


def of_tree(machine, *commands):
    """The line of a tree whose filter allows all: each command a task, a call and its arguments, or the bytes of a filter."""
    def told(task, name, *args):
        if name == "fork" and machine.number(name) is None:
            name, args = "clone", (PROCESS,)  # a machine without fork
        args = arguments_of(machine, name, args)
        numbers = [f"{arg:x}" for arg in args if not isinstance(arg, str)]
        filters = [arg for arg in args if isinstance(arg, str)]
        return ":".join([f"{task:x}", f"{machine.number(name):x}", *numbers, *["0"] * (6 - len(numbers)), *filters])

    return f"tree {ALL} {';'.join(told(*command) for command in commands)}"


def of_call(machine, name, *args, way=0, filters=()):
    """The line of a call by its name, under filters."""
    return case_line(filters, [(machine.ways[way][0], machine.number(name, way), args)])


def of_tasks(machine):
    """What is said of tasks and calls, of every machine: the sentence, the line that tries it, and the answer that bears it out."""
    return [
        ("EACCES for a load without no_new_privs and without privilege", "told without_no_new_privs", "-13"),
        ("TRAP may be handled", "told trap_handled", "31 77"),
        ("SIGTERM may be handled", "told term_handled", "15"),
        ("kill answers 0 for a task that has ended and was not waited for, and then ESRCH", "told kill_of_ended", "0 -3"),
        ("of a status the low byte counts", "told exit_status", "52 53"),
        ("the number of an ended task is used again", "told number_again", "2 2"),
        ("SIGTERM from outside does nothing to a namespace's first process, SIGKILL ends it", "told first_from_outside", "1 9"),
        ("vfork hands on filters", "told vfork_hands_on", "-77"),
        ("a listener may answer", "told listener_answers", "77"),
        ("a tracer may let a call be carried out", "told tracer_answers", "1"),
        ("kill looks for its target first", of_call(machine, "kill", 0x3FFFFFF0, 1000), "- -3 end"),
        ("kill of a thread's number is a signal for its group",
         of_tree(machine, (1, "fork"), (2, "clone", THREAD), (1, "kill", 3, 15)), "2 1,2;3 1,2,3;0 1"),
        ("an orphan's new parent is the namespace's first process",
         of_tree(machine, (1, "fork"), (2, "fork"), (3, "getppid"), (2, "exit_group"), (3, "getppid")),
         "2 1,2;3 1,2,3;2 1,2,3;ended 1,3;1 1,3"),
        ("execve may fail", of_call(machine, "execve"), "- -14 end"),
        ("there is a strict mode", of_call(machine, "seccomp", 0), "- 0 end"),
        ("clone3 is there", of_call(machine, "clone3"), "- -22 end"),
        ("TSYNC_ESRCH: ESRCH in place of the thread's number",
         of_tree(machine, (1, "clone", THREAD), (2, "seccomp", 1, 0, ALL), (1, "seccomp", 1, TSYNC_AND_ESRCH, ALL),
                 (1, "seccomp", 1, 1, ALL)),
         "2 1,2;0 1,2;-3 1,2;2 1,2"),
        ("two loads of the same bytes are two filters",
         of_tree(machine, (1, "clone", THREAD), (1, "seccomp", 1, 0, ALL), (2, "seccomp", 1, 0, ALL), (1, "seccomp", 1, 1, ALL)),
         "2 1,2;0 1,2;0 1,2;2 1,2"),
    ]


def of_halves(machine):
    """What is said of arguments of 64 bits of which 32 are read."""
    return [
        ("of clone's flags the lower half is read", of_tree(machine, (1, "clone", 1 << 32 | PROCESS), (2, "getpid")), "2 1,2;2 1,2"),
        ("of the target of kill the lower half is read", of_tree(machine, (1, "fork"), (1, "kill", 1 << 32 | 2, 9)), "2 1,2;0 1"),
    ]


def of_x86_64(machine):
    """What is said of x86-64 alone, with what it has of x86."""
    uretprobe, uprobe = machine.number("uretprobe"), machine.number("uprobe")
    return [
        ("x86 takes the lower halves of arguments", of_call(machine, "close", 1 << 32, way=1), "- 0 end"),
        ("uretprobe of x86-64 passes every filter", of_call(machine, "uretprobe", filters=[KILL]), "0 - signal 4"),
        ("uprobe of x86-64 passes every filter", of_call(machine, "uprobe", filters=[KILL]), "0 -6 end"),
        ("335 of x86 passes none", case_line([KILL], [(INT80, uretprobe, [])]), "0 - signal 31"),
        ("336 of x86 passes none", case_line([KILL], [(INT80, uprobe, [])]), "0 - signal 31"),
    ]


def of_arm():
    """What is said of ARM's private numbers: whether filters judge them, and what comes of them where nothing refuses them."""
    private = {"0xf0000": (0xF0000, "-38 end"), "0xf07ff": (0xF07FF, "-38 end"), "0xf0800": (0xF0800, "- signal 4"),
               "0x7fffffff": (0x7FFFFFFF, "- signal 4"), "0x80000000": (0x80000000, "-38 end")}
    for told, (nr, free) in private.items():
        yield f"what comes of ARM's number {told} is {free}", case_line([], [(SYSCALL, nr, [])]), f"- {free}"
        yield f"ARM's number {told} passes no filter", case_line([KILL], [(SYSCALL, nr, [])]), "0 - signal 31"


def of_s390(machine):
    """What is said of the numbers of s390x and s390: the lower 16 bits are the number, and the kernel shows filters no more."""
    nr = machine.number("getpid")
    longer = [(SYSCALL, 1 << 16 | nr, [])]
    kills = digits([(LD, 0, 0, 0), (JEQ, 0, 1, nr), (RET, 0, 0, 0x80000000), (RET, 0, 0, ALLOW)])
    return [
        (f"of a number of {machine.name} 16 bits count", case_line([], longer), "- pid end"),
        (f"filters see 16 bits of a number of {machine.name}", case_line([kills], longer), "0 - signal 31"),
    ]


def sentences(machine):
    """All that is said of a machine."""
    if machine is ARM:
        return [*of_arm()]
    if machine is S390:
        return of_s390(machine)
    further = {X86_64: of_x86_64, S390X: of_s390}.get(machine)
    return [*of_tasks(machine), *of_halves(machine), *(further(machine) if further else ())]


def is_of_x86(line):
    """Whether a line makes a call of x86."""
    return f" {INT80}:" in line


def lacked(sides):
    """The lines that cannot be tried on this kernel, and why not: it lacks the calls of x86, or a later call."""
    machine = sides.machine
    later = [name for name in ("uretprobe", "uprobe") if machine.number(name) is not None]
    free = sides.real([of_call(machine, name) for name in later])
    why = {of_call(machine, name, filters=[KILL]): f"this kernel has no {name}" for name, told in zip(later, free) if told == NO_CALL}
    if machine is X86_64 and not sides.real([of_call(machine, "getpid", way=1)])[0].startswith("- pid"):
        why |= {line: "this kernel has no calls of x86" for _, line, _ in sentences(machine) if is_of_x86(line)}
    return why


def run(sides):
    """Tries each sentence, and the limit on the length of a task's filters."""
    tally, every = Tally("sentences"), sentences(sides.machine)
    why = lacked(sides)
    tally.untried = [f"{what}: {why[line]}" for what, line, _ in every if line in why]
    some = [sentence for sentence in every if sentence[1] not in why]
    for (what, _, right), told in zip(some, sides.real([line for _, line, _ in some])):
        if told in ("no namespace", "no count", "no /proc"):
            tally.untried.append(f"{what}: {told}")
            continue
        tally.count(told == right, lambda: f"{what}: wanted {right}, the kernel: {told}")
    if sides.machine.run:
        limit(sides, tally)
    return tally


def limit(sides, tally):
    """A task's filters may come to so much, and then a load fails with ENOMEM: in Linux earlier, since it counts its translation."""
    bundle = json.dumps({"ociVersion": "1.0.2", "linux": {"seccomp": {"defaultAction": "SCMP_ACT_ALLOW"}}})
    told = sides.real(["told load_limit"])[0]
    if not told:
        tally.untried.append("the limit on the length of a task's filters: the time of its child was over")
        return
    count, error = told.split()
    lines = ["create c b1", "start c", *["call c 1 seccomp 1 0 0 prog 060000000000ff7f"] * (MODEL_LIMIT + 1)]
    replies = sides.script(bundle, lines)[2:]
    loaded = replies.index("failed 12") if "failed 12" in replies else len(replies)
    is_right = error == "-12" and 0 < int(count) <= loaded
    tally.count(is_right, lambda: f"filters of one instruction: the model takes {loaded}, the kernel: {count}, {error}")
    tally.name(f"of filters of one instruction it takes {count}, and the model {loaded}")
