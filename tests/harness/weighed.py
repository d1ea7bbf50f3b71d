"""How much the program takes for inputs that were drawn, and whether that is within the bound.

A run takes seconds of processor, which other work on the machine lengthens. So the bound is on the least of three runs, unless the first is
well below it. Where valgrind is there, and these are above the bound, instructions are counted: more of them than a second is good for, for
each second of the bound, are too many.
"""
import fnmatch
import os
import re
import resource
import shutil
import subprocess
import tempfile

from harness.hostile import drawn
from harness.places import CCELL, TOP
from harness.tally import TALLY, tell

# The bound, in seconds of processor, and how many instructions a second is good for.
MOST, A_SECOND = 2.0, 4_000_000_000
# After so many seconds of processor a run is ended.
END = 4
# What is known to take longer: a command and a kind of input in each line.
KNOWN = f"{TOP}/tests/slow.known"


def known():
    """The commands and kinds that are passed over, each with stars where it stands for several."""
    with open(KNOWN, encoding="utf-8") as file:
        return [line.strip() for line in file if line.strip() and not line.startswith("#")]


def limited():
    resource.setrlimit(resource.RLIMIT_CPU, (END, END + 1))


def seconds(words, given):
    """The seconds of processor of a run, and its status."""
    with tempfile.TemporaryFile() as file:
        file.write(given)
        file.seek(0)
        child = subprocess.Popen([CCELL, *words], stdin=file, stdout=subprocess.DEVNULL, stderr=subprocess.DEVNULL, preexec_fn=limited)
        _, status, used = os.wait4(child.pid, 0)
        child.returncode = os.waitstatus_to_exitcode(status)
    return used.ru_utime + used.ru_stime, child.returncode


def instructions(words, given):
    """The instructions of a run, by valgrind."""
    with tempfile.NamedTemporaryFile() as out:
        valgrind = ["valgrind", "--tool=callgrind", f"--callgrind-out-file={out.name}"]
        told = subprocess.run([*valgrind, CCELL, *words], input=given, capture_output=True, check=False).stderr.decode()
    found = re.search(r"Collected : (\d+)", told)
    return int(found[1]) if found else 0


def fault(words, given):
    """What is wrong with how much a run takes, or nothing; and the seconds."""
    took, status = seconds(words, given)
    if status not in (0, 1, 4):
        return f"ends with {status} after {took:.1f} s", took
    if took > MOST / 2:
        took = min(took, *(seconds(words, given)[0] for _ in range(2)))
    if took <= MOST:
        return "", took
    if took < END and shutil.which("valgrind"):
        count = instructions(words, given)
        return f"takes {count:,} instructions" if count > MOST * A_SECOND else "", took
    return f"takes {took:.1f} s", took


def draw(count, first):
    """Tries the inputs of so many seeds, and prints the counts."""
    over, skipped, slowest = known(), {}, []
    for seed in range(first, first + count):
        with tempfile.TemporaryDirectory() as room:
            kind, words, given = drawn(seed, room)
            found = [pattern for pattern in over if fnmatch.fnmatchcase(kind, pattern)]
            if found:
                skipped[found[0]] = skipped.get(found[0], 0) + 1
                continue
            told, took = fault(words, given)
            slowest = sorted([*slowest, (took, seed, kind)])[-3:]
            tell(not told, f"seed {seed}: {kind}: {told}")
    for pattern, times in sorted(skipped.items()):
        print(f"not tried, since it is known to be slow: {pattern}, {times} times")
    for took, seed, kind in reversed(slowest):
        print(f"{took:.2f} s: seed {seed}, {kind}")
    print(f"{TALLY.passed} passed, {TALLY.failed} failed")
    return 1 if TALLY.failed else 0
