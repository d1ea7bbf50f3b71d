"""The files that rows put, in a room of their own."""
import os
import subprocess
import tempfile

from harness.limits import ENDLESS
from harness.places import CCELL
from harness.rows import Fault
from harness.texts import bytes_of, expanded, is_digits, number


def split_in(text, count):
    """The fields of a text, up to so many, and the rest as the last."""
    fields = text.split(" ", count - 1)
    if len(fields) < count:
        raise Fault(f"{count} fields are wanted: {text}")
    return fields


def assembled(rows):
    """The bytes of each listing of which rows make files, in digits, or what the program tells of it."""
    told = {}
    for listing in {listing_of(row.text) for row in rows} - {None}:
        with tempfile.NamedTemporaryFile("w", encoding="utf-8", newline="") as file:
            file.write(expanded(listing))
            file.flush()
            ran = subprocess.run([CCELL, "assemble", file.name], capture_output=True, timeout=ENDLESS, check=False)
        told[listing] = ran.stdout.decode(errors="replace").rstrip() if ran.returncode else ran.stdout.hex()
    return told


def listing_of(text):
    """The listing of `file NAME program LISTING`, if a row is that."""
    fields = text.split(" ", 3)
    return fields[3] if fields[0] == "file" and fields[2:3] == ["program"] and len(fields) == 4 else None


class Shelf:
    """Files by their names. They lie in a folder in which the program is run, and each version of one has a path besides."""

    def __init__(self, room, programs):
        self.folder, self.versions = f"{room}/files", f"{room}/versions"
        os.mkdir(self.folder)
        os.mkdir(self.versions)
        self.programs = programs
        # The bytes of each file, or None where it has none that can be read; and those for which there is no memory.
        self.files, self.large, self.paths = {}, set(), {}

    def put(self, line):
        """Puts the file `NAME KIND ..`, in place of one of that name."""
        name, kind, rest = split_in(line + " ", 3)
        rest = rest.removesuffix(" ")
        if kind == "unreadable":
            self.keep(name, None)
        elif (kind, rest) == ("too", "large"):
            self.keep(name, bytes(8))
            self.large.add(name)
        else:
            self.keep(name, self.made(kind, rest))

    def made(self, kind, rest):
        """The bytes of a file of this kind."""
        if kind == "hex":
            return bytes_of(rest)
        if kind == "text":
            return expanded(rest).encode()
        if kind == "program":
            return self.assembled(rest)
        if kind == "changed":
            other, place, digits = split_in(rest, 3)
            return changed(self.bytes_of(other), number(place), bytes_of(digits))
        if kind == "beginning":
            other, count = split_in(rest, 2)
            return beginning(self.bytes_of(other), number(count))
        raise Fault(f"no kind of file: {kind}")

    def assembled(self, listing):
        """The bytes of a listing."""
        if not is_digits(self.programs[listing]):
            raise Fault(f"no listing: {self.programs[listing]}")
        return bytes.fromhex(self.programs[listing])

    def keep(self, name, data):
        """Keeps bytes as a file of this name. What stands for no bytes is a folder, which no program can read."""
        path = f"{self.folder}/{name}"
        if os.path.isdir(path):
            os.rmdir(path)
        if data is None:
            os.mkdir(path)
        else:
            with open(path, "wb") as file:
                file.write(data)
        self.files[name] = data
        self.large.discard(name)
        self.paths.pop(name, None)

    def add(self, line):
        """Adds the bytes `NAME HEX` to the end of a file."""
        name, digits = split_in(line, 2)
        self.keep(name, self.bytes_of(name) + bytes_of(digits))

    def bytes_of(self, name):
        """The bytes of a file."""
        if self.files.get(name) is None or name in self.large:
            raise Fault(f"no bytes of {name}")
        return self.files[name]

    def path_of(self, name):
        """A path at which a file's bytes stay, whatever is put by its name later."""
        if name not in self.paths:
            path = f"{self.versions}/{len(os.listdir(self.versions))}"
            with open(path, "wb") as file:
                file.write(self.bytes_of(name))
            self.paths[name] = path
        return self.paths[name]


def changed(data, place, others):
    """The bytes with others from a place on."""
    if place + len(others) > len(data):
        raise Fault("no such place in the file")
    return data[:place] + others + data[place + len(others) :]


def beginning(data, count):
    """The first bytes."""
    if count > len(data):
        raise Fault("the file has fewer bytes")
    return data[:count]
