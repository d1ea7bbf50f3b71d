"""Runs of the program whose input or output gives out, at every place.

tests/refuse.c stands between the program and the operating system, and has its calls on standard input and output fail.
"""
import os
import re
import subprocess
from concurrent.futures import ThreadPoolExecutor
from dataclasses import dataclass

from harness.limits import ENDLESS
from harness.places import CCELL
from harness.program import arguments_of

# What an output does that has no room left: it fails from then on; it fails once and has room again; it takes no byte.
FULL = ("from", "alone", "none")
# How many bytes a call moves at most: as many as there are, or one.
AT_ONCE, BY_BYTE = 2**63, 1
STEP_TEXT = {AT_ONCE: "all bytes a call", BY_BYTE: "one byte a call"}


@dataclass
class Ended:
    """What came of a run: how many bytes of the input were read, and what went to standard error, a write each."""

    status: int
    out: bytes
    err: list
    read: int

    def stopped(self, out, line):
        """Whether it stopped with this line on standard error, in one write, after it had written just these bytes."""
        return (self.status, self.out, self.err) == (3, out, [line.encode()])


def first_lines(text, count):
    """The first so many lines of a text."""
    return b"".join(re.findall(rb"[^\n]*\n|[^\n]+", text)[:count])


class Case:
    """What the program is run on: the arguments after its name, and its input."""

    def __init__(self, shelf, shim, line):
        line, _, name = line.partition(" < ")
        self.shelf, self.shim, self.arguments = shelf, shim, arguments_of(line)
        self.text = shelf.bytes_of(name) if name else b""

    def run(self, text=None, **refused):
        """Runs it, with an input and an output that give out as is said by the variables of tests/refuse.c."""
        env = {"PATH": os.environ["PATH"]}
        if refused:
            env["LD_PRELOAD"] = self.shim
            env.update({f"REFUSE_{what.upper()}": str(n) for what, n in refused.items()})
        with os.fdopen(os.memfd_create("input"), "r+b") as given:
            given.write(self.text if text is None else text)
            given.seek(0)
            return self.run_on(given, env)

    def run_on(self, given, env):
        """Runs it on an open file. A pipe of packets keeps each write to standard error by itself."""
        behind, before = os.pipe2(os.O_DIRECT | os.O_CLOEXEC)
        with os.fdopen(behind, "rb", buffering=0) as told:
            with os.fdopen(before, "wb", buffering=0) as err:
                how = {"stdin": given, "stdout": subprocess.PIPE, "stderr": err, "timeout": ENDLESS, "check": False}
                ran = subprocess.run([CCELL, *self.arguments], cwd=self.shelf.folder, env=env, **how)
            packets = list(iter(lambda: told.read(65536), b""))
        return Ended(ran.returncode, ran.stdout, packets, os.lseek(given.fileno(), 0, os.SEEK_CUR))


class Streams:
    """Questions on streams that give out."""

    KINDS = ("outputs", "inputs", "ends", "names")

    def __init__(self, shelf, shim):
        self.shelf, self.shim = shelf, shim

    def answer(self, kind, rest):
        """The answer to a question."""
        if kind == "names":
            return names(Case(self.shelf, self.shim, f"ccell verdict {'x' * int(rest)} y"))
        return {"outputs": outputs, "inputs": inputs, "ends": ends}[kind](Case(self.shelf, self.shim, rest))


def first_wrong(is_right, ways):
    """The first of the ways that is not right, if there is one."""
    pool = ThreadPoolExecutor(os.cpu_count())
    try:
        return next((way for way, right in zip(ways, pool.map(lambda way: is_right(*way), ways)) if not right), None)
    finally:
        pool.shutdown(cancel_futures=True)


def told(wrong, text):
    """The way that is not right: at which place, how many bytes a call moves, and what fails there."""
    step, how, place = wrong
    return f"{text.format(place)} ({STEP_TEXT[step]}, {how})"


def outputs(case):
    """How many beginnings the output has. With room for each of them, the program has to stop there."""
    whole = case.run().out

    def is_right(step, full, room):
        ended = case.run(step=step, full=full, room=room)
        # The reply that found no room is to the line behind those that were answered.
        line = first_lines(case.text, whole[:room].count(b"\n") + 1)
        is_read_on = step == BY_BYTE and ended.read > len(line)
        return ended.stopped(whole[:room], f"ccell: write failed after {room} bytes\n") and not is_read_on

    ways = [(step, full, room) for step in (AT_ONCE, BY_BYTE) for full in FULL for room in range(len(whole))]
    wrong = first_wrong(is_right, ways)
    return told(wrong, "wrong with room for {} bytes") if wrong else f"{len(whole)} beginnings"


def inputs(case):
    """How many calls the input is read in, one byte a call. Where any of them fails, the program has to stop there."""
    whole = case.run().out
    last = len(case.text)

    def is_right(step, how, calls):
        ended = case.run(step=step, **{f"read_{how}": calls + 1})
        read = calls if step == BY_BYTE else ended.read
        lines = case.text[:read].count(b"\n")
        line = f"ccell: read failed at line {lines + 1}\n"
        return ended.read == read and ended.stopped(first_lines(whole, lines), line)

    at_once = [(AT_ONCE, how, calls) for how in ("from", "alone") for calls in range(min(last, 1) + 1)]
    by_byte = [(BY_BYTE, how, calls) for how in ("from", "alone") for calls in range(last + 1)]
    wrong = first_wrong(is_right, at_once + by_byte)
    return told(wrong, "wrong after {} calls") if wrong else f"{last + 1} calls"


def ends(case):
    """How many beginnings the input has. Where it gives a byte a call and ends, the program does what it does on that alone."""

    def is_right(count):
        ended, alone = case.run(step=BY_BYTE, end=count), case.run(case.text[:count])
        return (ended.status, ended.out, ended.err) == (alone.status, alone.out, alone.err)

    wrong = first_wrong(is_right, [(count,) for count in range(len(case.text) + 1)])
    return f"wrong after {wrong[0]} bytes" if wrong else f"{len(case.text) + 1} ends"


def names(case):
    """In how many writes the line came that says that a file cannot be read."""
    ended = case.run()
    return f"{len(ended.err)} writes of {sum(map(len, ended.err))} bytes, status {ended.status}"
