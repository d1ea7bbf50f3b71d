"""What docs/LIBRARY.md says that the library does otherwise than libseccomp, on both: the answers stand here as its table has them."""
from harness.scmp import ARCHS, record
from harness.tally import tell
from second_judge import answer

INVALID, FAULT, ERRNO, ALLOW = -22, -14, 0x50001, 0x7FFF0000
LEVELS = range(1, 7)
# Actions that libseccomp has from an API level on, and ours at each level.
SINCE = {"LOG": 3, "KILL_PROCESS": 3}
# Machines whose names and numbers the library does not know.
UNKNOWN = [name for name in ("mips", "mipsel", "s390x", "m68k", "sh") if name in ARCHS]


def at_levels(library):
    """For each action and level whether there is a context by it, and the error of a rule."""
    found = {}
    for level in LEVELS:
        library.at.bare("api_set", level)
        for name in SINCE:
            made = library.init(name)
            library.init("ERRNO(1)")
            found[name, level] = made == 0, library.add(name, "read")
    library.at.bare("api_set", LEVELS[-1])
    library.release()
    return found


def of_upper_half(library):
    """What a rule that refuses a number answers to it on x32, alone and with bits above the lower half."""
    library.init("ALLOW")
    library.arch("add", "x32")
    library.add("ERRNO(1)", "ioctl", "a1==0x5412")
    made = library.export()[1]
    library.release()
    return [answer(made, record("x32", "0x40000202", "0", value)) for value in ("0x5412", "0x100005412")]


def of_priority(library):
    """The errors of seccomp_syscall_priority for a number that is no call: for this machine alone, and beside another."""
    found = []
    library.init("ERRNO(1)")
    for _ in range(2):
        found.append(library.plain("syscall_priority", "9999", "5"))
        library.arch("add", "x86")
    library.release()
    return found


def names_of(library, machine):
    """Whether a name has its own number there, and a number a name."""
    return library.resolve(machine, "read") >= 0, library.name(machine, 3) != "null"


def tried(ours, theirs):
    """Holds both libraries to the table."""
    here, there = at_levels(ours), at_levels(theirs)
    tell(set(here.values()) == {(True, 0)}, f"levels, ours: {here}")
    wanted = {(name, level): (level >= since, 0 if level >= since else INVALID) for name, since in SINCE.items() for level in LEVELS}
    tell(there == wanted, f"levels, libseccomp: {there}")
    tell((of_upper_half(ours), of_upper_half(theirs)) == ([ERRNO, ALLOW], [ERRNO, ERRNO]), "x32: the upper half of an argument")
    tell((of_priority(ours), of_priority(theirs)) == ([0, 0], [0, FAULT]), f"priorities: {of_priority(ours)}, {of_priority(theirs)}")
    for machine in UNKNOWN:
        tell(names_of(ours, machine) == (False, False), f"names of {machine}: {names_of(ours, machine)}")
    tell(names_of(theirs, "s390x") == (True, True) and names_of(theirs, "mips")[0], f"names of s390x, libseccomp: {names_of(theirs, 's390x')}")
