"""Runs of the built program `ccell` on the files of rows, told as rows tell them."""
import os
import re
import subprocess

from harness.limits import ENDLESS
from harness.places import CCELL
from harness.rows import Fault
from harness.texts import expanded, grouped, lines_of


def arguments_of(line):
    """The arguments after the program's name in `ccell ARGUMENT ..`, where two quotes are an empty one."""
    name, *arguments = line.split()
    if name != "ccell":
        raise Fault(f"no program: {name}")
    return ["" if argument == "''" else argument for argument in arguments]


def is_input(text):
    """Whether a row is a line of standard input."""
    return text.startswith(">")


def line_of(text):
    """What the row `> TEXT` gives: the text and a line feed, or the text alone where a backslash stands behind it."""
    text = text[1:].removeprefix(" ")
    return expanded(text[:-1]) if text.endswith("\\") else expanded(text) + "\n"


class Program:
    """The program in the folder of a shelf."""

    def __init__(self, shelf, shim):
        self.shelf, self.shim = shelf, shim

    def environment(self, arguments):
        """Where an argument names a file for which there is no memory: what refuses all growths while that file is open."""
        large = [argument for argument in arguments if argument in self.shelf.large]
        return {"PATH": os.environ["PATH"], **({"LD_PRELOAD": self.shim, "REFUSE_FILE": large[0]} if large else {})}

    def run(self, arguments, given=b""):
        """Runs it on arguments and standard input."""
        how = {"cwd": self.shelf.folder, "env": self.environment(arguments), "timeout": ENDLESS, "check": False}
        return subprocess.run([CCELL, *arguments], input=given, capture_output=True, **how)

    def session(self, row, arguments, inputs):
        """Tells under a row what the program writes and its status, and under each row of its standard input the reply."""
        ran = self.run(arguments, "".join(line_of(it.text) for it in inputs).encode())
        last = inputs[-1] if inputs else row
        if ran.stdout.startswith(b"CCRT"):
            last.tell(grouped(ran.stdout))
        else:
            tell_replies(inputs, last, ran.stdout.decode())
        if ran.stderr:
            last.tell("on standard error:", *lines_of(ran.stderr.decode()))
        last.tell(f"status {ran.returncode}")

    def own(self, row, line):
        """Has it export the filter and the certificate of `MACHINE PROFILE`, and check the two."""
        native, bundle = line.split()
        for form in ("raw", "cert"):
            ran = self.run(["export", native, bundle, form])
            row.tell(f"export {form}: status {ran.returncode}")
            self.shelf.keep(form, ran.stdout)
        self.session(row, ["check", native, bundle, "raw", "cert"], [])

    def certify(self, row, line):
        """Asks for the evidence on `MACHINE PROFILE FILTER`, and tells of a certificate what the check says of it. Of a record
        alone something has to stand on standard error."""
        ran = self.run(["certify", *line.split()])
        if bool(ran.stderr) != ran.stdout.startswith(b"no record"):
            raise Fault(f"on standard error: {ran.stderr.decode()!r}")
        if not ran.stdout.startswith(b"CCRT"):
            row.tell(*lines_of(ran.stdout.decode()))
            return
        self.shelf.keep("told", ran.stdout)
        checked = self.run(["check", *line.split(), "told"])
        row.tell(f"a certificate: {checked.stdout.decode().rstrip()}")

    def flattened(self, row, line):
        """Has it make one filter of `MACHINE FILTER.. as EXPECTED`, and tells whether the bytes are those of the last file."""
        *given, _, expected = line.split()
        ran = self.run(["flatten", *given])
        row.tell("the same filter" if ran.stdout == self.shelf.bytes_of(expected) else f"another filter: {ran.stdout.hex()}")
        row.tell(f"status {ran.returncode}")

    def exported(self, row, line):
        """Has it export the filter of `MACHINE PROFILE as EXPECTED`, and tells whether the bytes are those of the last file."""
        native, bundle, _, expected = line.split()
        ran = self.run(["export", native, bundle, "raw"])
        row.tell("the same filter" if ran.stdout == self.shelf.bytes_of(expected) else f"another filter: {ran.stdout.hex()}")
        row.tell(f"status {ran.returncode}")

    def behind(self, row, line):
        """Asks for the evidence on `MACHINE PROFILE FILTER` behind runc's stub. Tells what stands on standard error, and of a certificate
        what the check says of it and of the filter without its stub, whose size is told, or else of the whole."""
        native, bundle, filtered = line.split()
        ran = self.run(["certify", native, bundle, filtered, "runc"])
        told = ran.stderr.decode()
        row.tell(*lines_of(told))
        if not ran.stdout.startswith(b"CCRT"):
            row.tell(*lines_of(ran.stdout.decode()))
            return
        size = re.search(r"the first (\d+) bytes", told)
        self.shelf.keep("told", ran.stdout)
        self.shelf.keep("rest", self.shelf.bytes_of(filtered)[int(size[1]) if size else 0 :])
        of_rest, of_whole = (self.run(["check", native, bundle, name, "told"]).stdout.decode().rstrip() for name in ("rest", filtered))
        row.tell(f"a certificate: {of_rest}" if of_rest == "yes" else f"a certificate of the whole: {of_whole}")


def tell_replies(inputs, last, written):
    """Tells a line of what was written under each row of input, and the lines that are left under the last."""
    left = written
    for row in inputs:
        reply, feed, rest = left.partition("\n")
        if feed:
            row.tell(reply)
            left = rest
    last.tell(*lines_of(left))
