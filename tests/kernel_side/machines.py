"""The machines whose programs make the calls: a row each. Numbers of calls are those of docs/linux-calls.txt."""
import functools
from dataclasses import dataclass

from harness.calls import TOKENS
from harness.places import TOP

# The columns of docs/linux-calls.txt.
COLUMNS = (
    *("linux-x86-64", "linux-x86", "linux-x32", "linux-aarch64", "linux-arm"),
    *("linux-riscv64", "linux-ppc64le", "linux-loongarch64", "linux-s390x", "linux-s390"),
)
X32 = 0x40000000


@dataclass(frozen=True)
class Machine:
    """A machine, as the programs of the real side are built for it."""

    name: str
    whole: str  # the native machine whose whole table has its calls, which `export` is asked for
    run: str  # the machine of `ccell run` that has these calls, if there is one
    ways: tuple  # the letters of the ways into the kernel (ways.c), and whose calls come by each
    listed: str  # its name in a bundle
    besides: tuple  # names that a bundle may have beside it
    bits: int = 64  # of a register
    further: tuple = ()  # numbers that are no call of its own, and are tried as such
    number_bits: int = 32  # of a number, as the kernel takes it
    is_big_endian: bool = False
    flags_of_clone: int = 0  # which of its arguments these are
    in_memory: tuple = ()  # calls whose arguments stand in memory, where no filter sees them
    by_arguments: tuple = ()  # calls of which their arguments decide what comes where nothing refuses them

    def number(self, name, way=0):
        """The number of a call by a way, or None where the machine has none of this name."""
        return numbers(self.ways[way][1]).get(name)

    def token(self, way):
        """The token of records of calls that come by a way, by its letter."""
        return TOKENS[dict(self.ways)[way]]


@functools.cache
def numbers(machine):
    """The numbers of a machine's calls, by their names."""
    column = COLUMNS.index(machine)
    with open(f"{TOP}/docs/linux-calls.txt", encoding="utf-8") as file:
        lines = [line.split() for line in file if line.strip() and not line.startswith("#")]
    told = {name: told.split("/")[column] for name, told in lines}
    return {name: int(number) for name, number in told.items() if number != "-"}


X86_64 = Machine(
    name="x86-64",
    whole="linux-x86-64",
    run="x86-64",
    ways=(("s", "linux-x86-64"), ("i", "linux-x86")),
    listed="SCMP_ARCH_X86_64",
    besides=("SCMP_ARCH_X86", "SCMP_ARCH_X32"),
    further=tuple(X32 | nr for nr in (0, 3, 39, 0x200, 1000, 0x3FFFFFFF)),
)
AARCH64 = Machine(
    name="aarch64",
    whole="linux-aarch64",
    run="aarch64",
    ways=(("s", "linux-aarch64"),),
    listed="SCMP_ARCH_AARCH64",
    besides=("SCMP_ARCH_ARM",),
)
# The private numbers of ARM begin at 0xf0000: of the first five each is a call, and behind 0xf07ff a call ends by SIGILL.
ARM = Machine(
    name="arm",
    whole="linux-aarch64",
    run="",
    ways=(("s", "linux-arm"),),
    listed="SCMP_ARCH_ARM",
    besides=("SCMP_ARCH_AARCH64",),
    bits=32,
    further=(0xF0000, 0xF0006, 0xF07FF, 0xF0800, 0xFFFFF, 0x40000000),
)
RISCV64 = Machine(
    name="riscv64",
    whole="linux-riscv64",
    run="linux-riscv64",
    ways=(("s", "linux-riscv64"),),
    listed="SCMP_ARCH_RISCV64",
    besides=("SCMP_ARCH_AARCH64",),
)
PPC64LE = Machine(
    name="ppc64le",
    whole="linux-ppc64le",
    run="linux-ppc64le",
    ways=(("s", "linux-ppc64le"),),
    listed="SCMP_ARCH_PPC64LE",
    besides=("SCMP_ARCH_RISCV64",),
)
S390X = Machine(
    name="s390x",
    whole="linux-s390x",
    run="linux-s390x",
    ways=(("s", "linux-s390x"),),
    listed="SCMP_ARCH_S390X",
    besides=("SCMP_ARCH_S390",),
    number_bits=16,
    is_big_endian=True,
    flags_of_clone=1,
    in_memory=("mmap",),
)
S390 = Machine(
    name="s390",
    whole="linux-s390x",
    run="",
    ways=(("s", "linux-s390"),),
    listed="SCMP_ARCH_S390X",
    besides=("SCMP_ARCH_S390",),
    bits=32,
    number_bits=16,
    is_big_endian=True,
    flags_of_clone=1,
    by_arguments=("read", "write"),
)
MACHINES = {machine.name: machine for machine in (X86_64, AARCH64, ARM, RISCV64, PPC64LE, S390X, S390)}
