"""The real side: its program, built for a machine, and where it runs: here, or in a guest with a kernel of its own."""
import subprocess

from harness.limits import ENDLESS
from harness.places import TOP
from harness.rows import Fault

HERE = f"{TOP}/tests/kernel_side"
SOURCES = ("main.c", "ways.c", "enter.c", "cases.c", "tree.c", "tree_tasks.c", "widths.c", "told.c", "listeners.c")


def build(compiler, program, *hows):
    """Builds the real side in the first of some ways in which a compiler can; returns whether there was one."""
    sources = [f"{HERE}/{name}" for name in SOURCES]
    for how in hows:
        made = subprocess.run([*compiler.split(), "-O2", "-Wall", how, "-o", program, *sources], capture_output=True, check=False)
        if made.returncode == 0:
            return True
    return False


class Here:
    """The program on this machine's kernel."""

    def __init__(self, program):
        self.program = program

    def build(self):
        """Builds it; returns whether a compiler could. Without the static library of C it is built without it."""
        return build("cc", self.program, "-static", "-no-pie")

    def told(self, given):
        """What it writes on these bytes, and its status."""
        ran = subprocess.run([self.program], input=given, capture_output=True, timeout=ENDLESS, check=False)
        return ran.stdout, ran.returncode


class Within:
    """The program in a guest: a file of the folder that both see."""

    MOST_LINES = 1000

    def __init__(self, guest, program):
        self.guest, self.program = guest, program

    def told(self, given):
        """What it writes on these bytes, and its status. Some lines are asked at a time, so that a guest that stands is noticed."""
        lines, whole = given.splitlines(keepends=True), b""
        for at in range(0, len(lines), self.MOST_LINES):
            with open(f"{self.guest.share}/asked", "wb") as file:
                file.writelines(lines[at : at + self.MOST_LINES])
            out, status = self.guest.run(f"/host/{self.program} </host/asked")
            whole += out
            if status:
                return whole, status
        return whole, 0


def answers(real, lines):
    """The real side's answers to lines."""
    out, status = real.told("".join(f"{line}\n" for line in lines).encode())
    told = out.decode().splitlines()
    if status or len(told) != len(lines):
        raise Fault(f"the real side: status {status}, {len(told)} answers to {len(lines)} lines")
    return told
