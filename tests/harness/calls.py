"""The tables of calls, asked of the programs: the names of a machine's calls by their numbers, and the numbers by their names.

A name is asked for by a bundle that lists all machines of a family, and a number by what is told of it: of many by a filter that asks
for each, and of one by a call that is explained.
"""
import functools
import json
import re
import struct
import subprocess
import tempfile

from harness.ask import answers
from harness.places import CCELL
from harness.rows import Fault
from harness.texts import number

# The machines of a family, by what stands before a row's kind.
MACHINES = {
    "": ("x86-64", "aarch64"),
    "linux-": (
        *("linux-x86-64", "linux-x86", "linux-x32", "linux-aarch64", "linux-arm"),
        *("linux-riscv64", "linux-ppc64le", "linux-loongarch64", "linux-s390x", "linux-s390"),
    ),
}
# The token of each machine in a record (seccomp(2); AUDIT_ARCH_X86_64, AUDIT_ARCH_AARCH64, AUDIT_ARCH_I386 and so on of linux/audit.h).
# x32's is that of x86-64.
TOKENS = {
    "x86-64": 0xC000003E,
    "aarch64": 0xC00000B7,
    "linux-x86-64": 0xC000003E,
    "linux-x86": 0x40000003,
    "linux-x32": 0xC000003E,
    "linux-aarch64": 0xC00000B7,
    "linux-arm": 0x40000028,
    "linux-riscv64": 0xC00000F3,
    "linux-ppc64le": 0xC0000015,
    "linux-loongarch64": 0xC0000102,
    "linux-s390x": 0x80000016,
    "linux-s390": 0x16,
}
# The names of machines in the answers of `ask`.
DEBUG_NAMES = {
    "X86_64": "x86-64",
    "Aarch64": "aarch64",
    "LinuxX86_64": "linux-x86-64",
    "LinuxX86": "linux-x86",
    "LinuxX32": "linux-x32",
    "LinuxAarch64": "linux-aarch64",
    "LinuxArm": "linux-arm",
    "LinuxRiscv64": "linux-riscv64",
    "LinuxPpc64le": "linux-ppc64le",
    "LinuxLoongarch64": "linux-loongarch64",
    "LinuxS390x": "linux-s390x",
    "LinuxS390": "linux-s390",
}
# The names that a bundle may have for machines (config-linux, Seccomp).
SCMP_NAMES = [f"SCMP_ARCH_{name}" for name in "X86 X86_64 X32 ARM AARCH64 MIPS MIPS64 PPC64LE RISCV64 S390 S390X LOONGARCH64".split()]
# What is told of a number that no call has.
NO_NAME = "no call"
# The least number of an x32 call, which has no name of its own in a listing, and the bit that all of them carry.
LEAST_X32 = 0x40000000
# Numbers of calls that are asked, of each machine: x32's have that bit, and the last ones are private to ARM.
ASKED = [*range(1024)], [*range(LEAST_X32, LEAST_X32 + 1024)], [*range(0xF0000, 0xF0010)]
LOAD, EQUALS, RETURN = 0x20, 0x15, 0x06
ALLOW = 0x7FFF0000


def program(*arguments):
    """What the program writes, and its status."""
    ran = subprocess.run([CCELL, *arguments], capture_output=True, timeout=120, check=False)
    return ran.stdout, ran.returncode


def of_bytes(data, *arguments):
    """The lines that the program writes on arguments and a file of these bytes behind them."""
    with tempfile.NamedTemporaryFile() as file:
        file.write(data)
        file.flush()
        return program(*arguments, file.name)[0].decode().splitlines()


def bundle(**members):
    """The text of a bundle whose section allows nothing but what these members say."""
    return json.dumps({"ociVersion": "1.0.2", "linux": {"seccomp": {"defaultAction": "SCMP_ACT_ERRNO", **members}}})


def family_of(machine):
    """What stands before the names of a machine's family, and before the kinds of rows on it."""
    return "linux-" if machine.startswith("linux-") else ""


def native_of(machine):
    """A machine of the family that a container may be for."""
    return f"{family_of(machine)}x86-64"


def call_told(machine, nr):
    """The machine and the name, or `-`, that are told of a number with a machine's token."""
    with tempfile.NamedTemporaryFile("w") as file:
        file.write(bundle())
        file.flush()
        told = program("explain", native_of(machine), file.name, f"{machine}:{nr}")[0].decode().splitlines()
    name, owner = re.fullmatch(r"call (?:(\w+), number )?\d+ of (\S+)", told[0]).groups()
    return owner, name or "-"


def name_at(machine, nr):
    """The name of a machine's call of this number, or `-` for none."""
    owner, name = call_told(machine, nr)
    return name if owner == machine else "-"


def names_at(machine, numbers):
    """The names that are told of these numbers behind a machine's token: what is told of a filter that asks for each number."""
    begin = [(LOAD, 0, 0, 4), (EQUALS, 1, 0, TOKENS[machine]), (RETURN, 0, 0, 0), (LOAD, 0, 0, 0)]
    insns = [*begin, *((EQUALS, 0, 0, nr) for nr in numbers), (RETURN, 0, 0, ALLOW)]
    told = of_bytes(b"".join(struct.pack("<HBBI", *insn) for insn in insns), "annotate", native_of(machine))
    meant = [re.fullmatch(r".{6}\S+ \S+ +(\S.*), to \d+", line)[1] for line in told[len(begin) : -1]]
    return ["-" if name == NO_NAME else name for name in meant]


@functools.cache
def names_of(machine):
    """The names of a machine's calls by their numbers, in the order of these."""
    low, x32, private = ASKED
    asked = x32 if machine == "linux-x32" else [*low, *private]
    told = dict(zip(asked, names_at(machine, asked)))
    if LEAST_X32 in told:
        told[LEAST_X32] = name_at(machine, LEAST_X32)
    return {nr: name for nr, name in told.items() if name != "-"}


def numbers_of(family, names):
    """The numbers of names on each machine of a family that has them, by the rules of a bundle that lists all of its machines."""
    entry = {"names": [*names], "action": "SCMP_ACT_ALLOW"}
    text = bundle(architectures=[scmp_of(machine) for machine in MACHINES[family]], syscalls=[entry])
    (told,) = answers([f"profile bundle {family}x86-64 {text}"])
    return [rule_of(line) for line in told[3:]]


def rule_of(line):
    """The machine and the number of a rule."""
    machine, nr = re.match(r"Rule \{ arch: (\w+), nr: (\d+),", line).groups()
    return DEBUG_NAMES[machine], int(nr)


@functools.cache
def record_of(machine, name):
    """The bytes of the record of a call of a native machine by its name, or nothing."""
    data, status = program("record", machine, name)
    return None if status else data


@functools.cache
def number_of(machine, name):
    """The number of such a call, or None."""
    data = record_of(machine, name)
    return None if data is None else struct.unpack_from("<I", data)[0]


@functools.cache
def token_of(machine):
    """The token of a machine: that of the record of its number 0."""
    data, _ = program("record", native_of(machine), f"{machine}:0")
    return struct.unpack_from("<I", data, 4)[0]


@functools.cache
def scmp_of(machine):
    """The name of a machine in a bundle: the one for which it is told that a bundle lists it."""
    native = native_of(machine)
    for name in SCMP_NAMES:
        listed = [name, *([] if machine == native else [scmp_of(native)])]
        told = of_bytes(bundle(architectures=listed).encode(), "read", native)
        if told[0].startswith("machines ") and machine in told[0].split()[1:]:
            return name
    raise Fault(f"no name of {machine}")


def machines(family, _rest):
    """Each machine with its name in a bundle and its token in a record."""
    return [f"{machine} {scmp_of(machine)} {token_of(machine):#x}" for machine in MACHINES[family]]


def counts(family, _rest):
    """How many calls each machine has."""
    return [f"{machine} {len(names_of(machine))}" for machine in MACHINES[family]]


def shown(machine, numbers):
    """A machine's number among these, or `-` for none. x32's stand without the bit that all of them carry."""
    if machine not in numbers:
        return "-"
    nr = numbers[machine]
    if machine != "linux-x32":
        return str(nr)
    return str(nr - LEAST_X32) if nr >= LEAST_X32 else f"{nr} without the bit of x32"


def call(family, name):
    """A name with its number on each machine, or `-` for none."""
    numbers = dict(numbers_of(family, [name]))
    return [f"{name} {'/'.join(shown(machine, numbers) for machine in MACHINES[family])}"]


def names(family, nr):
    """A number with its name on each machine."""
    return [f"{number(nr)} {'/'.join(name_at(machine, number(nr)) for machine in MACHINES[family])}"]


def calls(family, _rest):
    """All calls with their numbers, by the names that numbers have: those of the first machine in the order of its numbers, then
    those that the next one has besides, and so on. The numbers that the names have are asked for apart, and are the same."""
    by_name = {}
    for machine in MACHINES[family]:
        for nr, name in names_of(machine).items():
            by_name.setdefault(name, {})[machine] = nr
    rules = sorted((machine, nr) for numbers in by_name.values() for machine, nr in numbers.items())
    if sorted(rule for some in in_parts([*by_name]) for rule in numbers_of(family, some)) != rules:
        raise Fault("names have other numbers than those that have these names")
    return [f"{name} {'/'.join(shown(machine, numbers) for machine in MACHINES[family])}" for name, numbers in by_name.items()]


def in_parts(names):
    """Names in parts that an entry of a bundle may have."""
    return [names[at : at + 100] for at in range(0, len(names), 100)]


KINDS = {"machines": machines, "counts": counts, "call": call, "number": names, "calls": calls}


def is_on_calls(kind):
    """Whether a row of this kind asks for the tables of calls."""
    return kind.removeprefix("linux-") in KINDS


def answer(kind, rest):
    """The answer to a question on the tables of calls, of the machines of a family."""
    return KINDS[kind.removeprefix("linux-")](family_of(kind), rest)
