"""libseccomp's own tests, under the library that takes its place.

The programs of its folder tests/ are linked with that library, and do what the lines of each file `*.tests` ask for, as libseccomp's own
driver has them done. A filter is asked by libseccomp's simulator, tools/scmp_bpf_sim, and, on machines that ccell knows, by `ccell
verdict`. Lines for valgrind are left out. tests/README.md names the tests that do not pass: these must not, and all others have to."""
import glob
import itertools
import os
import random
import re
import shutil
import subprocess
import tempfile

from guests.packages import KEYS, Packages, carried_out
from harness.measured import measured
from harness.places import CCELL, TOP
from harness.scmp import action, record
from harness.tally import tell

MIRROR, SUITES = "http://deb.debian.org/debian", ("bookworm", "trixie")
TOOLS = ("scmp_bpf_sim", "scmp_sys_resolver", "scmp_arch_detect", "scmp_api_level")
KNOWN = ("x86_64", "x86", "x32", "aarch64", "arm", "riscv64", "ppc64le", "loongarch64")
# How a program ends that carries out a call with such an action, and what a line of the table in tests/README.md says of a test.
ENDS = {"KILL": 159, "KILL_PROCESS": 159, "ALLOW": 160, "TRAP": 161, "ERRNO": 163, "LOG": 164}
ALL, OTHERS = "all", "other machines"
COUNTS = ("lines", "records", "shown", "alone")
ROW = re.compile(rf"^\| ((?:`\d\d-[\w-]+`(?:, )?)+) \| ({ALL}|{OTHERS}) \| (.+) \|$", re.MULTILINE)


def fetched():
    """The sources of libseccomp in Debian's suites, by an apt whose state is in the user's cache."""
    cache = f"{os.environ.get('XDG_CACHE_HOME') or os.path.expanduser('~/.cache')}/ccell-libseccomp"
    for suite in SUITES:
        found = glob.glob(f"{cache}/{suite}/libseccomp-*/")
        if not found:
            packages = Packages(f"{cache}/{suite}", "amd64", suite, MIRROR)
            packages.write("etc/apt/sources.list", f"deb-src [signed-by={KEYS}] {MIRROR} {suite} main\n")
            packages.apt("apt-get", "-qq", "source", "libseccomp")
            found = glob.glob(f"{cache}/{suite}/libseccomp-*/")
        yield found[0].rstrip("/")


def listed():
    """What tests/README.md says of tests that do not pass: whether all of their lines fail, or some on other machines."""
    with open(f"{TOP}/tests/README.md", encoding="utf-8") as file:
        return {name: fails for names, fails, _ in ROW.findall(file.read()) for name in re.findall("`(.+?)`", names)}


class Built:
    """Programs of a folder of libseccomp's sources, compiled into a room and linked with a library."""

    def __init__(self, source, library, room):
        self.source, self.library, self.room = source, library, room
        self.version = re.search(r"AC_INIT\(\[libseccomp\], \[([\d.]+)", self.text("configure.ac")).group(1)
        for tool in TOOLS:
            self.made(f"tools/{tool}")
        self.native, self.level = self.tool("scmp_arch_detect"), int(self.tool("scmp_api_level"))
        groups = re.findall(r'GLBL_ARCH_(\w+)_SUPPORT="([^"]*)"', self.text("tests/regression"))
        self.groups = {f"all_{name.lower().removesuffix('b')}": set(words.replace("\\", " ").split()) for name, words in groups}
        self.groups["all"] = {self.native}

    def text(self, name):
        """A file of the sources."""
        with open(f"{self.source}/{name}", encoding="utf-8") as file:
            return file.read()

    def made(self, name):
        """Where a program is, which is compiled unless it is there."""
        to = f"{self.room}/{name}"
        if not os.path.exists(to):
            os.makedirs(os.path.dirname(to), exist_ok=True)
            carried_out(["cc", "-w", f"-I{self.source}/include", "-o", to, f"{self.source}/{name}.c",
                         f"{self.source}/{os.path.dirname(name)}/util.c", f"{self.library}/libseccomp.so.2",
                         f"-Wl,-rpath,{self.library}", "-lpthread"])
        return to

    def tool(self, name, *words):
        """What a tool prints."""
        return carried_out([f"{self.room}/tools/{name}", *words]).decode().strip()

    def ran(self, *words):
        """The status of a test that is run, what it writes, and what is wrong if that is not 0. A script finds its program beside it."""
        settings = {**os.environ, "srcdir": f"{self.source}/tests", "CCELL_MESSAGES": "1"}
        came = subprocess.run(words, cwd=f"{self.room}/tests", capture_output=True, timeout=60, check=False, env=settings)
        status = came.returncode if came.returncode >= 0 else 128 - came.returncode
        return status, came.stdout, f"status {status} {came.stderr.decode(errors='replace').strip()}".strip()

    def machines(self, asked):
        """The machines of a line: of each group the native one; with `+` in front all of it, and with `-` none."""
        found, left_out = [], set()
        for sign, name in re.findall(r"([+-]?)(\w+)", asked):
            group = self.groups.get(name, {name})
            left_out |= group if sign == "-" else set()
            found += sorted(group if sign == "+" else group & {self.native} if not sign else [])
        return [name for name in found if name not in left_out]

    def numbers(self, machine, text):
        """The numbers of a call, or of a range of calls, as the library has them."""
        if re.fullmatch(r"-?\d+(-\d+)?", text):
            return spread(text)
        return [int(self.tool("scmp_sys_resolver", "-a", machine, "-t", text))]


def spread(text):
    """The numbers of a word: of `2-5` all of them, of `N` 0 alone."""
    if text == "N":
        return [0]
    first, last = re.fullmatch(r"(-?\w+?)(?:-(\w+))?", text).groups()
    return range(int(first, 0), int(last or first, 0) + 1)


def lines_of(path):
    """The lines of a file, each with its kind."""
    kind = None
    with open(path, encoding="utf-8") as file:
        for line in map(str.strip, file):
            if line.startswith("test type:"):
                kind = line.partition(":")[2].strip()
            elif line and not line.startswith("#"):
                yield kind, line.split()


def verdict(path, of):
    """What `ccell verdict` answers."""
    with open(f"{path}.rec", "wb") as file:
        file.write(of)
    came = subprocess.run([CCELL, "verdict", path, f"{path}.rec"], capture_output=True, text=True, check=False)
    return (came.stdout + came.stderr).strip()


def as_verdict(answer):
    """What the simulator answers, as `ccell verdict` has it; or the words of its fault."""
    return f"{action(answer):#010x}" if re.match("[A-Z]+_?[A-Z]+($|\\()", answer) and answer not in ("FAULT", "ERROR") else answer


class Trial:
    """The lines of a test: how many there are, how many records they ask about, and what was not as it has to be."""

    def __init__(self, built):
        self.built = built
        self.lines = self.records = self.shown = self.alone = 0
        self.faults, self.others = [], []  # of machines that ccell knows, and of others

    def run(self, path):
        """Does what each line of a file asks for."""
        for kind, words in lines_of(path):
            if kind == "bpf-valgrind":
                continue
            self.lines += 1
            for machine, fault in KINDS[kind](self, *words):
                (self.faults if machine in KNOWN else self.others).append(f"{kind} {' '.join(words)}: {fault}")
        return self

    def wrong(self, fails):
        """What is wrong with a test, if tests/README.md says so much of it, or nothing."""
        if fails == ALL:
            return "" if len(self.faults) == self.lines else f"only {len(self.faults)} of {self.lines} lines fail {self.faults[:1]}"
        if fails == OTHERS:
            return str(self.faults[0]) if self.faults else "" if self.others else "it passes"
        return next(iter(self.faults + self.others), "")

    def filter(self, name):
        """The file of the filter that a program writes, and what is wrong if there is none."""
        status, made, why = self.built.ran(self.built.made(f"tests/{name}"), "-b")
        path = f"{self.built.room}/filter"
        with open(path, "wb") as file:
            file.write(made)
        return path, why if status else ""

    def asked(self, path, machine, number, values):
        """The verdict on a record: the simulator's, and on machines that it knows ccell's. The simulator knows no jump by bits (JSET)."""
        words = [word for place, value in enumerate(values) for word in (f"-{place}", str(value))]
        came = subprocess.run([f"{self.built.room}/tools/scmp_bpf_sim", "-a", machine, "-f", path, "-s", str(number), *words],
                              capture_output=True, text=True, check=False)
        answer = (came.stdout + came.stderr).strip()
        self.records += 1
        if machine not in KNOWN:
            return as_verdict(answer)
        self.shown += 1
        shown = verdict(path, record(machine, str(number), *map(str, values)))
        self.alone += answer == "FAULT"
        return shown if answer == "FAULT" or as_verdict(answer) == shown else f"{answer}, and by ccell {shown}"

    def simulate(self, name, machines, call, *rest):
        """A filter, and records with the answer that is wanted. Of a machine the first fault is told."""
        *arguments, wanted = rest
        path, why = self.filter(name)
        if why:
            yield self.built.native, why
            return
        for machine in self.built.machines(machines):
            for number, *values in itertools.product(self.built.numbers(machine, call), *map(spread, arguments)):
                answer = self.asked(path, machine, number, values)
                if answer != as_verdict(wanted):
                    yield machine, f"{machine} {number} {values}: {answer}"
                    break

    def fuzz(self, name, count):
        """A filter, and records at random: the simulator and ccell answer alike."""
        path, why = self.filter(name)
        if why:
            yield self.built.native, why
            return
        chance = random.Random(name)
        for _ in range(int(count)):
            number, *values = chance.getrandbits(31), *(chance.getrandbits(64) for _ in range(6))
            answer = self.asked(path, self.built.native, number, values)
            if not re.fullmatch("0x[0-9a-f]{8}", answer):
                yield self.built.native, f"{number} {values}: {answer}"
                return

    def basic(self, name):
        """A program, or a script that runs one: it ends with 0."""
        program = self.built.made(f"tests/{name.removesuffix('.sh')}")
        status, _, why = self.built.ran(f"{self.built.source}/tests/{name}" if name.endswith(".sh") else program)
        if status:
            yield self.built.native, why

    def live(self, name, level, asked):
        """A program that loads a filter ends as the action has it."""
        if self.built.level < int(level):
            yield self.built.native, f"the level of the interface is {self.built.level}"
            return
        status, _, why = self.built.ran(self.built.made(f"tests/{name}"), asked)
        if status != ENDS[asked]:
            yield self.built.native, why


KINDS = {"bpf-sim": Trial.simulate, "bpf-sim-fuzz": Trial.fuzz, "basic": Trial.basic, "live": Trial.live}


def run(folder, sources, keeps):
    """Runs the tests of folders with sources, or of those that apt has; and keeps the counts in docs/figures."""
    wanted = ["cc", *([] if sources else ["apt-get", "dpkg-source"])]
    lacks = [name for name in wanted if not shutil.which(name)]
    if lacks:
        print(f"passed over: there is no {lacks[0]}")
        return
    fails, rows, seen = listed(), [], set()
    for source in sources or fetched():
        with tempfile.TemporaryDirectory() as room:
            built = Built(os.path.abspath(source), folder, room)
            paths = sorted(glob.glob(f"{built.source}/tests/*.tests"))
            trials = {os.path.basename(path).removesuffix(".tests"): Trial(built).run(path) for path in paths}
        for name, trial in trials.items():
            wrong = trial.wrong(fails.get(name))
            tell(not wrong, f"libseccomp {built.version}, {name}{', which is listed' * (name in fails)}: {wrong}")
        counts = [sum(getattr(trial, what) for trial in trials.values()) for what in COUNTS]
        pass_ = sum(not trial.wrong(None) for trial in trials.values())
        rows.append([built.version, len(trials), pass_, sum(fails.get(name) == OTHERS for name in trials), *counts])
        print("libseccomp {}: {} tests, {} pass, {} but for other machines; {} lines, {} records, {} shown to ccell, {} to it alone"
              .format(*rows[-1]))
        seen |= set(trials)
    tell(bool(sources) or set(fails) <= seen, f"tests/README.md names tests that there are not: {sorted(set(fails) - seen)}")
    if keeps:
        measured("own_tests", rows, True)
