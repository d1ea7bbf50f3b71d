"""Whether calls run the filters of their task, told by the processor's time that many of them take.

Calls that run a filter of some thousand instructions take some twenty times as long as calls that run none, and calls that their
number lets through hardly longer than these. Other work on the machine lengthens a run, some two or three times, and never shortens it.
So the calls are timed in turn with as many of no task, which run no filter, and the least time of each is taken.
"""
import os
import subprocess
import tempfile

from harness.places import CCELL
from harness.rows import Fault
from harness.shelf import split_in

# How many calls are timed.
CALLS = 20_000
# So many times as long as the calls of no task may those take that run no filter.
MOST = 5
# How often both are timed at least; and at most, where the answer would be that filters are run.
LEAST_ROUNDS, ROUNDS = 3, 6


def seconds(shelf, arguments, lines, last):
    """The seconds of processor that the program takes on these lines, of which the last has this reply."""
    with tempfile.TemporaryFile(dir=shelf.folder) as given, tempfile.TemporaryFile(dir=shelf.folder) as out:
        given.write("".join(f"{line}\n" for line in lines).encode())
        given.seek(0)
        ran = subprocess.Popen([CCELL, *arguments], cwd=shelf.folder, stdin=given, stdout=out)
        _, status, used = os.wait4(ran.pid, 0)
        ran.returncode = os.waitstatus_to_exitcode(status)
        out.seek(0)
        replies = out.read().decode().splitlines()
    if ran.returncode or len(replies) != len(lines) or not replies[-1].startswith(last):
        raise Fault(f"status {ran.returncode}, {len(replies)} replies to {len(lines)} lines, the last {replies[-1:]}")
    return used.ru_utime + used.ru_stime


def pace(shelf, line):
    """Of `MACHINE PROFILE FILTER,.. CALL ..`: whether the call runs the filters of a task that has loaded these, or not."""
    native, bundle, filters, call = split_in(line, 4)
    loads = [f"call c 1 seccomp 1 0 0 prog {shelf.bytes_of(name).hex()}" for name in filters.split(",")]
    begin = ["create c b1", "start c", *loads]

    def time_of(task, last):
        return seconds(shelf, ["run", native, bundle], begin + [f"call c {task} {call}"] * CALLS, last)

    return "at once" if runs_none(lambda: time_of(1, "done "), lambda: time_of(9, "no task")) else "by the filters"


def runs_none(time_of_task, time_of_none):
    """Whether calls of a task take as little time as calls of none, each timed in turn with the others."""
    tasks = nones = float("inf")
    for rounds in range(1, ROUNDS + 1):
        tasks, nones = min(tasks, time_of_task()), min(nones, time_of_none())
        if rounds >= LEAST_ROUNDS and tasks < MOST * nones:
            return True
    return False
