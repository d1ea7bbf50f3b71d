"""Programs in C, compiled against the libraries for C or with their sources."""
import glob
import os
import shutil
import subprocess
import tempfile

from harness.places import TOP
from harness.tally import tell


class Machine:
    """A machine: its C compiler, what a program of it is run by, and its trials."""

    def __init__(self, compiler, run, calls):
        self.compiler, self.run, self.trials = compiler, run, f"{TOP}/tests/data/{calls}"

    def lacks(self):
        """What this machine lacks for it."""
        return [name for name in [self.compiler, *self.run[:1]] if not shutil.which(name)]

    def made(self, room, source, *words):
        """The command that runs a program in C, or nothing where it can't be compiled."""
        to = tempfile.mkdtemp(dir=room) + "/" + os.path.basename(source)[:-2]
        came = subprocess.run([self.compiler, "-Wall", "-Wextra", "-Werror", f"-I{TOP}/include", "-o", to, f"{TOP}/{source}", *words],
                              capture_output=True, text=True, check=False)
        tell(came.returncode == 0, f"{source}: {came.stderr}")
        return [*self.run, to] if came.returncode == 0 else None

    def runs(self, room, source, linked, *words):
        """Runs a program in C that prints what is not as it has to be."""
        command = self.made(room, source, *linked)
        if command:
            came = subprocess.run([*command, *words], capture_output=True, text=True, check=False)
            tell(came.returncode == 0, f"{source}, {linked[0]}: status {came.returncode}\n{came.stdout}{came.stderr}")


HERE = Machine("cc", [], "place.calls")
AARCH64 = Machine("aarch64-linux-gnu-gcc", ["qemu-aarch64", "-L", "/usr/aarch64-linux-gnu"], "place.aarch64.calls")


def shared_in(folder):
    """What the compiler is given for the shared library."""
    return [f"{folder}/libseccomp.so.2", f"-Wl,-rpath,{folder}"]


def sanitized(folder, kinds, *words):
    """What the compiler is given for the sources of that library with sanitizers, or nothing where the proved code is not at hand."""
    built = f"{TOP}/crates/filter_c/out"
    archives = [f"{folder}/libccell.a", f"{built}/x86-64/libccell.a", f"{built}/libfilter_c.a"]
    archive = next((path for path in archives if os.path.exists(path)), None)
    sources = sorted(glob.glob(f"{TOP}/seccomp/*.c"))
    return [f"-fsanitize={kinds}", "-fno-sanitize-recover=all", "-g", "-O1", "-pthread", *words, *sources, archive] if archive else []
