"""The side of tests/linux: Debian's source of Linux, and the program that is compiled of it."""
import glob
import os
import re
import subprocess
import tarfile
import tempfile

from guests.packages import unpack
from harness.fetched import cache, packages, refuse
from harness.places import TOP
from harness.rows import Fault
from linux_side.cut import FILES, MAKEFILE, cut

PACKAGE, SUITE = "linux-source-6.12", "trixie"
ARCHIVE = f"usr/src/{PACKAGE}.tar.xz"
HERE = f"{TOP}/tests/linux_side"
# How Linux's functions are compiled, which are not written for these warnings, and how ours are.
LINUX_FLAGS, OWN_FLAGS = ("-w", "-std=gnu11", "-fno-strict-aliasing"), ("-Wall", "-Wextra", "-Werror")


def source(fetches):
    """A folder with the files of the source that are looked at, which the user's cache keeps. They are of the package that is installed,
    or of one that is fetched."""
    folder = cache("linux")
    if all(os.path.exists(f"{folder}/{name}") for name in FILES):
        return folder
    if os.path.exists(f"/{ARCHIVE}"):
        unpack_source(f"/{ARCHIVE}", folder)
        return folder
    if not fetches:
        refuse(SUITE, [PACKAGE])
    with tempfile.TemporaryDirectory() as room:
        unpack(packages(f"{room}/apt", SUITE).alone(PACKAGE), f"{room}/root")
        unpack_source(f"{room}/root/{ARCHIVE}", folder)
    return folder


def unpack_source(archive, folder):
    """Unpacks those files."""
    left = {f"{PACKAGE}/{name}": f"{folder}/{name}" for name in FILES}
    with tarfile.open(archive, "r|xz") as members:
        for member in members:
            path = left.pop(member.name, None)
            if path:
                os.makedirs(os.path.dirname(path), exist_ok=True)
                with open(path, "wb") as file:
                    file.write(members.extractfile(member).read())
            if not left:
                return
    raise Fault(f"{archive} has no {', '.join(left)}")


def version_of(folder):
    """The version of the source: the first numbers of its Makefile."""
    with open(f"{folder}/{MAKEFILE}", encoding="utf-8") as file:
        return ".".join(re.findall(r"^(?:VERSION|PATCHLEVEL|SUBLEVEL) = (\d+)", file.read(), re.MULTILINE))


def compiled(*words):
    """Runs the compiler."""
    ran = subprocess.run([os.environ.get("CC", "cc"), *words], capture_output=True, text=True, check=False)
    if ran.returncode:
        raise Fault(f"the side cannot be compiled: {ran.stderr[:2000]}")


class Built:
    """The program, in a folder: Linux's functions as they are cut, in which mistakes can be planted."""

    def __init__(self, room, fetches):
        self.room, self.program, tree = room, f"{room}/side", source(fetches)
        self.version = version_of(tree)
        cut(tree, f"{room}/cut")
        self.own = sorted(name for name in glob.glob(f"{HERE}/*.c") if os.path.basename(name) != "linux.c")
        self.build(f"{room}/cut", self.program, "-O2")

    def build(self, texts, program, speed):
        """Compiles it of the texts in a folder."""
        compiled(speed, *LINUX_FLAGS, f"-I{texts}", "-c", "-o", f"{program}.o", f"{HERE}/linux.c")
        compiled(speed, *OWN_FLAGS, f"-I{texts}", "-o", program, f"{program}.o", *self.own)

    def with_mistake(self, file, old, new):
        """A program of which one text is changed wherever it has these words."""
        texts = f"{self.room}/wrong"
        subprocess.run(["rm", "-rf", texts], check=True)
        subprocess.run(["cp", "-r", f"{self.room}/cut", texts], check=True)
        with open(f"{texts}/{file}", encoding="utf-8") as opened:
            text = opened.read()
        if old not in text:
            raise Fault(f"{file} has no place for a mistake: {old}")
        with open(f"{texts}/{file}", "w", encoding="utf-8") as opened:
            opened.write(text.replace(old, new))
        self.build(texts, f"{self.room}/wrong-side", "-O1")
        return f"{self.room}/wrong-side"
