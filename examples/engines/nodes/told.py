"""How containers are told of: as lines, as JSON, and as metrics."""
import json
import os
import re
import sys
import time

from nodes.judging import RIGHT
from nodes.processes import plain

WHAT = ("name", "image", "pod", "namespace")


class Stop(Exception):
    """Ends a program with a status and a line."""

    def __init__(self, status, text):
        super().__init__(text)
        self.status = status


def word(text):
    """A text as one word that can be taken for no other part of a line."""
    return text if re.fullmatch(r"[\w.:/@+-]+", text, re.ASCII) else json.dumps(text)


def remark(text):
    """Tells lines on standard error, which need not be heard."""
    try:
        sys.stderr.write("".join(f"{plain(line)}\n" for line in text.splitlines()))
        sys.stderr.flush()
    except OSError:
        pass


def tell(line):
    """Tells a line on standard output, or ends the program."""
    try:
        sys.stdout.write(f"{line}\n")
        sys.stdout.flush()
    except OSError as why:
        os.dup2(os.open(os.devnull, os.O_WRONLY), 1)  # Python writes what is left at its end
        raise Stop(3, f"cannot write: {why.strerror}") from why


def line_of(row, is_double):
    """A row of a container as text, with its folder if another has its ID."""
    about = ", ".join(f"{what} {word(row[what])}" for what in WHAT + ("folder",) * is_double if row[what])
    return f"{word(row['container'])} {f'({about}) ' if about else ''}{row['text']}"


class Metrics:
    """A file for node_exporter's textfile collector, which may read it at any time."""

    def __init__(self, path):
        self.path, self.rows, self.next = path, {}, f"{path}.{os.getpid()}"
        if path:
            self.write("")

    def add(self, row):
        labels = {"container": row["container"], "folder": row["folder"], **{what: row[what] for what in WHAT}}
        for name, value, more in (("ccell_container_filter", 1, {"verdict": row["verdict"]}),
                                  ("ccell_container_filter_is_right", int(row["verdict"] in RIGHT), {}),
                                  ("ccell_container_is_unconfined", int(row["verdict"] == "unconfined"), {})):
            told = ",".join(f'{key}="{quoted(text)}"' for key, text in {**labels, **more}.items())
            self.rows.setdefault(name, {})[f"{name}{{{told}}}"] = value

    def close(self, left):
        """Puts the file in its place, with the number of threads that no container has."""
        if not self.path:
            return
        rows = {**self.rows, "ccell_node_threads_not_judged": {"ccell_node_threads_not_judged": left},
                "ccell_check_node_time_seconds": {"ccell_check_node_time_seconds": int(time.time())}}
        self.write("".join(f"# TYPE {name} gauge\n" + "".join(f"{label} {value}\n" for label, value in values.items())
                           for name, values in rows.items()))
        try:
            os.replace(self.next, self.path)
        except OSError as why:
            os.unlink(self.next)
            raise Stop(3, f"cannot write: {self.path}: {why.strerror}") from why

    def write(self, text):
        """Writes the next file whole, or leaves none."""
        try:
            if os.path.isdir(self.path):
                raise IsADirectoryError(0, "it is a folder")
            with open(self.next, "w", encoding="utf-8") as file:
                file.write(text)
                file.flush()
                os.fsync(file.fileno())
            if not text:
                os.unlink(self.next)
        except OSError as why:
            if os.path.exists(self.next):
                os.unlink(self.next)
            raise Stop(3, f"cannot write: {self.path}: {why.strerror}") from why


def quoted(text):
    """A text as the value of a metric's label."""
    return plain(text).replace("\\", r"\\").replace('"', r"\"")
