"""The filters that a program and its children load, read by strace; and where two programs' filters differ, by `ccell compare`."""
import re
import struct
import subprocess
import tempfile
from collections import Counter

from harness.limits import ENDLESS
from harness.places import CCELL
from harness.rows import Fault

# Numbers stand for names (-X raw), and no list is cut (-v).
STRACE = ("strace", "-f", "-q", "-v", "-X", "raw", "-e", "trace=seccomp,prctl", "-o")
INSN = re.compile(r"BPF_(?:STMT|JUMP)\(([0-9a-fx|]+), ([0-9a-fx|]+)(?:, ([0-9a-fx]+), ([0-9a-fx]+))?\)")
LISTED = re.compile(r"\{len=(\d+), filter=\[(.*?)\]\}(.*)")
LINE = re.compile(r"(\S+) of (linux-[\w-]+(?:, linux-[\w-]+)*)(?: where .*)?: .*")


def filter_of(listed):
    """The bytes of a filter as strace lists it."""
    insns = [[sum(int(part, 0) for part in (word or "0").split("|")) for word in found] for found in INSN.findall(listed)]
    return b"".join(struct.pack("<HBBI", code, jt, jf, k) for code, k, jt, jf in insns)


def filters_in(log):
    """The different filters of a log that were loaded, in the order of their first loads."""
    found = {}
    for line in log.splitlines():
        listed = LISTED.search(line)
        if listed and not re.search(r"= -1 ", listed[3]):
            filtered = filter_of(listed[2])
            if len(filtered) == 8 * int(listed[1]):
                found[filtered] = None
    return [*found]


def traced(words, seconds, **options):
    """What a program does under strace: its status (None if it had to be ended), its output, and the filters that were loaded."""
    with tempfile.NamedTemporaryFile("r", encoding="utf-8", errors="replace") as log:
        try:
            ran = subprocess.run([*STRACE, log.name, *words], capture_output=True, timeout=seconds, check=False, **options)
            status, out, told = ran.returncode, ran.stdout, ran.stderr
        except subprocess.TimeoutExpired as late:
            status, out, told = None, late.stdout or b"", late.stderr or b""
        return status, out, told, filters_in(log.read())


def differences(ours, theirs):
    """The calls on which two filters differ: `(MACHINE, NAME)` each, or None where the filters cannot be compared."""
    with tempfile.NamedTemporaryFile() as one, tempfile.NamedTemporaryFile() as other:
        for file, content in ((one, ours), (other, theirs)):
            file.write(content)
            file.flush()
        words = [CCELL, "compare", "linux-x86-64", one.name, other.name, "filters"]
        ran = subprocess.run(words, capture_output=True, timeout=ENDLESS, check=False)
    lines = ran.stdout.decode().splitlines()
    if not lines or lines[-1] not in ("same", "differ", "none found"):
        return None
    found = [LINE.fullmatch(line) for line in lines[:-1]]
    if not all(found):
        raise Fault(f"a line of compare: {lines[found.index(None)]}")
    return [(machine, match[1]) for match in found for machine in match[2].split(", ")]


def pairs(ours, theirs):
    """Filters side by side, each of ours with the one of theirs from which it differs least."""
    left, told = [*theirs], []
    for one in ours:
        every = [(other, differences(one, other)) for other in left]
        if not every:
            break
        other, found = min(every, key=lambda pair: 10**9 if pair[1] is None else len(pair[1]))
        left.remove(other)
        told.append((one, other, found))
    return told


def told_of(found):
    """How many calls of each machine differ, in a few words."""
    if found is None:
        return "not compared"
    counts = Counter(machine.removeprefix("linux-") for machine, _ in found)
    return ", ".join(f"{count} of {machine}" for machine, count in sorted(counts.items())) or "none found"
