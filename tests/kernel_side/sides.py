"""The two sides: the real one is a program on a kernel (real.py), and the modelled one the built programs `ask` and `ccell`."""
import os
import subprocess
import tempfile
from collections import Counter

from harness.ask import answers
from harness.limits import ENDLESS
from harness.places import ASK, CCELL
from harness.rows import Fault
from kernel_side import real
from kernel_side.insns import turned

SYSCALL, INT80 = "s", "i"


def in_digits(machine, filtered):
    """The bytes of a machine's filter, in digits, as both sides read them: the lowest byte of a number first."""
    return (turned(filtered) if machine.is_big_endian else filtered).hex()


class Sides:
    """Both sides of a machine, in a folder for what they need."""

    def __init__(self, room, machine, side):
        self.room, self.machine, self.side = room, machine, side
        self.effects = {}

    def real(self, lines):
        """The real side's answers to lines."""
        return real.answers(self.side, lines) if lines else []

    @staticmethod
    def modelled(lines):
        """The library's answers to questions."""
        return answers(lines) if lines else []

    def script(self, bundle, lines):
        """The replies of `ccell run` to a script over one bundle."""
        with tempfile.NamedTemporaryFile("w", dir=self.room, suffix=".json") as file:
            file.write(bundle)
            file.flush()
            given = "".join(f"{line}\n" for line in lines).encode()
            words = [CCELL, "run", self.machine.run, file.name]
            ran = subprocess.run(words, input=given, capture_output=True, timeout=ENDLESS, check=False)
        told = ran.stdout.decode().splitlines()
        if ran.returncode or len(told) != len(lines):
            raise Fault(f"ccell run: status {ran.returncode}, {len(told)} replies to {len(lines)} lines, {told[:1]}")
        return told

    def exported(self, machine, bundle):
        """The bytes of the filter of a bundle, in digits, the lowest byte of a number first; or None where it has none."""
        with tempfile.NamedTemporaryFile("w", dir=self.room, suffix=".json") as file:
            file.write(bundle)
            file.flush()
            ran = subprocess.run([CCELL, "export", machine, file.name, "raw"], capture_output=True, timeout=ENDLESS, check=False)
        return None if ran.returncode else in_digits(self.machine, ran.stdout)

    def came_of(self, word, carried_out):
        """What the model says comes of a call with a verdict: its result, or None where the task ends."""
        if word not in self.effects:
            ((ends, errno, is_carried_out),) = self.modelled([f"verdict effect {word}"])
            error = None if errno == "None" else int(errno.removeprefix("Some(").removesuffix(")"))
            self.effects[word] = ends, error, is_carried_out == "true"
        ends, error, is_carried_out = self.effects[word]
        if is_carried_out:
            return carried_out
        return str(-error) if ends == "Nothing" else None


def missing():
    """What has to be built before, or nothing."""
    return [f"{path} is not built: run rt ci" for path in (ASK, CCELL) if not os.path.exists(path)]


def case_line(filters, calls):
    """The line that asks the real side for filters, in digits, and calls, each a way, a number and arguments."""
    asked = ",".join(":".join([way, f"{nr:x}", *(f"{arg:x}" for arg in args)]) for way, nr, args in calls)
    return f"case {','.join(filters) if filters else '-'} {asked or '-'}"


class Tally:
    """What came of the cases of a kind."""

    def __init__(self, kind):
        self.kind, self.alike, self.unlike, self.faults, self.untried = kind, 0, 0, [], []
        self.named, self.seen = Counter(), Counter()

    def count(self, is_alike, told):
        """Counts a case, and keeps the first that differ."""
        if is_alike:
            self.alike += 1
            return
        self.unlike += 1
        if len(self.faults) < 5:
            self.faults.append(told())

    def name(self, difference):
        """Counts a case in which the kernel differs as docs/KERNEL.md says. It counts as alike as well."""
        self.named[difference] += 1

    def see(self, what):
        """Counts what a case came to, so that one sees which are tried."""
        self.seen[what] += 1

    def summary(self):
        """What is told of the kind: how many cases were alike, what they came to, and what was not tried."""
        head = f"{self.kind}: {self.alike} alike, {self.unlike} unlike"
        if self.seen:
            head += f" ({', '.join(f'{what} {count}' for what, count in sorted(self.seen.items()))})"
        named = [f"    {count} of them differ as docs/KERNEL.md says: {what}" for what, count in sorted(self.named.items())]
        return [head, *named, *(f"    not tried: {what}" for what in self.untried)]
