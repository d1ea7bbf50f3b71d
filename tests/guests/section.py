"""docker's section on a real kernel: what `ccell adapt` makes of Docker's own file for the guest's machine is exported, loaded and read
back; calls of both kinds are made under it, and a socket of virtual machines is asked for by a number with an upper half."""
import glob
import subprocess
from dataclasses import dataclass

from guests.guest import under_filter
from guests.packages import unpack_files
from harness.asked import record
from harness.limits import ENDLESS
from harness.places import CCELL, TOP
from harness.rows import Fault
from kernel_side.handed import arguments_of
from kernel_side.sides import SYSCALL, Tally, case_line, in_digits

# Debian's package with Docker's sources, and the profile in it.
SOURCES, PROFILE = "golang-github-docker-docker-dev", "*/docker/docker/profiles/seccomp/default.json"
NOT_OPEN, AF_VSOCK, UPPER, NEW_USER, OF_FS, MASK = 1000, 40, 1 << 32, 0x10000000, 0x200, 2**32 - 1
OPENS, PID = "opens", "pid"


@dataclass(frozen=True)
class Asked:
    """A call with what Docker's file says of it: its result under the filter, and without one."""

    name: str
    args: tuple
    under: str
    free: str
    narrowed: str = ""  # under the narrowed section, if it is another one
    has_uppers: bool = False  # an argument has an upper half, which a machine of 32 bits has not

    def wanted(self, name):
        """What comes of it under the section of this name."""
        return self.narrowed if name == "narrowed" and self.narrowed else self.under

    def arguments(self, machine):
        """Its arguments as a machine has them."""
        return arguments_of(machine, self.name, self.args)

    def line(self, machine, filters):
        """The line of the real side."""
        return case_line(filters, [(SYSCALL, machine.number(self.name), self.arguments(machine))])


# By Docker's profile for a container without options: the first are allowed, the others refused by error 1, or 38 of clone3.
CALLS = (
    Asked("getpid", (), PID, PID),
    Asked("read", (NOT_OPEN,), "-9", "-9"),
    Asked("socket", (1, 1, 0), OPENS, OPENS),
    Asked("personality", (MASK,), "0", "0"),
    Asked("clone", (0x10000,), "-22", "-22"),
    Asked("mount", (), "-1", "-14"),
    Asked("unshare", (), "-1", "0"),
    Asked("personality", (1,), "-1", "0"),
    Asked("clone", (NEW_USER | OF_FS,), "-1", "-22"),
    Asked("clone3", (), "-38", "-22"),
    Asked("socket", (AF_VSOCK, 1, 0), "-1", OPENS),
    Asked("socket", (UPPER | AF_VSOCK, 1, 0), OPENS, OPENS, narrowed="-1", has_uppers=True),
)


def written(words, path):
    """Writes to a file what `ccell` writes; returns its bytes."""
    ran = subprocess.run([CCELL, *words], capture_output=True, timeout=ENDLESS, check=False)
    if ran.returncode not in (0, 5):
        raise Fault(f"ccell {' '.join(words[:2])}: status {ran.returncode}: {ran.stderr[-300:].decode()}")
    with open(path, "wb") as file:
        file.write(ran.stdout)
    return ran.stdout


def content_of(path):
    """The bytes of a file."""
    with open(path, "rb") as file:
        return file.read()


def profile_of_docker(packages, folder):
    """Docker's own file, of Debian's package of its sources."""
    found = glob.glob(f"{folder}/docker/**/default.json", recursive=True)
    if not found:
        unpack_files(packages.alone(SOURCES), f"{folder}/docker", [PROFILE])
        found = glob.glob(f"{folder}/docker/**/default.json", recursive=True)
    return found[0]


def sections(machine, profile, share):
    """The filters of the section as docker has it and of the narrowed one, by their names; the bundles stand beside them."""
    filters = {}
    for name, words in (("docker", []), ("narrowed", ["narrow"])):
        bundle = f"{share}/{name}.json"
        written(["adapt", machine.whole, profile, "for", "docker", *words, "bundle"], bundle)
        filters[name] = written(["export", machine.whole, bundle, "raw"], f"{share}/{name}.bpf")
    return filters


def is_right(told, wanted):
    """Whether what came of a call, its result and the end of the child, is what is wanted."""
    result, _, end = told.partition(" ")
    if wanted == OPENS:
        return end == "end" and result.isdecimal()
    return (result, end) == (wanted, "end")


def came_of(both, calls, filtered):
    """Whether a filter loads, and what comes of each call under it; without one where there are no bytes."""
    loaded = [in_digits(both.machine, filtered)] if filtered else []
    told = [line.partition(" ") for line in both.real([asked.line(both.machine, loaded) for asked in calls])]
    return all(loads == ("0" if filtered else "-") for loads, _, _ in told), [rest for _, _, rest in told]


def try_calls(both, tally, filters):
    """Makes the calls without a filter and under each."""
    machine = both.machine
    calls = [asked for asked in CALLS if not asked.has_uppers or machine.bits == 64]
    _, free = came_of(both, calls, b"")
    if any(asked.args[:1] == (AF_VSOCK,) and told.startswith("-") for asked, told in zip(calls, free)):
        tally.untried.append(f"sockets of virtual machines: this kernel opens none for {machine.name}")
        calls = [asked for asked in calls if asked.name != "socket" or asked.args[0] == 1]
    for name, filtered in {"without a filter": b"", **filters}.items():
        loads, came = came_of(both, calls, filtered)
        for asked, told in zip(calls, came):
            wanted = asked.wanted(name) if filtered else asked.free
            tally.see(name)
            tally.count(loads and is_right(told, wanted), lambda: f"{name}: {asked.name} {asked.args}: wanted {wanted}, the kernel: {told}")
            if filtered:
                compare_with_model(both, tally, filtered, asked, told)


def compare_with_model(both, tally, filtered, asked, told):
    """Whether the model says of a call what the kernel did: that it is carried out, or which error it gets."""
    nr, token = both.machine.number(asked.name), both.machine.token(SYSCALL)
    asked_for = [f"filter bytes {in_digits(both.machine, filtered)}", f"filter run {record(nr, token, asked.arguments(both.machine))}"]
    _, (word, *_) = both.modelled(asked_for)
    wanted = both.came_of(int(word, 16), asked.free)
    tally.count(is_right(told, wanted), lambda: f"{asked.name} {asked.args}: the model: {word}, the kernel: {told}")


def build_tools(compiler, share):
    """Builds what loads a filter and what reads it back."""
    for name in ("under", "dump"):
        made = subprocess.run([compiler, "-O2", "-static", "-o", f"{share}/{name}", f"{TOP}/examples/engines/{name}.c"],
                              capture_output=True, check=False)
        if made.returncode:
            raise Fault(f"{name}.c is not built: {made.stderr[-300:].decode()}")


def try_read_back(guest, tally, filters):
    """Loads each filter, and compares its bytes with those that the kernel shows."""
    for name, filtered in filters.items():
        out, status = guest.run(f"cd /host; ./under {name}.bpf /bin/sleep 600 & {under_filter('$!')}; ./dump $! >loaded; kill -9 $!")
        loaded = content_of(f"{guest.share}/loaded")
        tally.count(loaded == filtered, lambda: f"read back, {name}: {len(loaded)} bytes of {len(filtered)}, status {status}: {out[-200:]}")


def run(guest, both, others, packages, compiler):
    """Tries the section on a guest: calls of its machine and of others that its kernel has, and the bytes that were loaded."""
    tally = Tally("docker's section")
    filters = sections(both.machine, profile_of_docker(packages, guest.folder), guest.share)
    for side in (both, *others):
        try_calls(side, tally, filters)
    build_tools(compiler, guest.share)
    try_read_back(guest, tally, filters)
    lengths = ", ".join(f"{name} {len(filtered) // 8}" for name, filtered in filters.items())
    tally.kind += f" ({lengths} instructions)"
    return tally
