"""The threads of a node, as /proc tells of them."""
import os
import re
from dataclasses import dataclass


@dataclass(frozen=True)
class Thread:
    """A thread. Another one that gets its number later has another start."""
    tid: int
    start: str
    pid: int
    parent: int
    uid: int
    name: str
    mode: str
    count: int
    space: str
    cgroups: tuple

    @property
    def key(self):
        return self.tid, self.start

    def __str__(self):
        return f"thread {self.tid} of process {self.pid} ({plain(self.name)})" if self.tid != self.pid else f"process {self.pid} ({plain(self.name)})"


def plain(text):
    """A text in which nothing ends a line, or changes how a terminal shows it."""
    return "".join(each if each.isprintable() else ascii(each)[1:-1] for each in text)


def read(path):
    with open(path, encoding="utf-8", errors="surrogateescape") as file:
        return file.read()


def cgroups_of(text):
    """The trees of a file `cgroup` of /proc, each with its path."""
    fields = (line.split(":", 2) for line in text.splitlines())
    return tuple((tree or number, path.removesuffix(" (deleted)")) for number, tree, path in fields)


def thread_of(pid, tid):
    """A thread of a process, or None if it has ended."""
    folder = f"/proc/{pid}/task/{tid}"
    try:
        status = dict(line.split(":", 1) for line in read(f"{folder}/status").split("\n") if ":" in line)
        if status["State"].strip()[0] in "ZX":
            return None
        start = read(f"{folder}/stat").rpartition(")")[2].split()[19]
        return Thread(tid, start, pid, int(status["PPid"]), int(status["Uid"].split()[0]), status["Name"].strip(), status.get("Seccomp", "?").strip(),
                      int(status.get("Seccomp_filters", "0")), space_of(folder, status["NSpid"]), cgroups_of(read(f"{folder}/cgroup")))
    except (FileNotFoundError, ProcessLookupError):
        return None


def space_of(folder, inner):
    """The namespace of processes that a thread is in; `""` for this program's own, in which it has one number."""
    if len(inner.split()) == 1:
        return ""
    try:
        return os.readlink(f"{folder}/ns/pid")
    except PermissionError:
        return folder


def numbers(folder):
    try:
        return sorted(int(name) for name in os.listdir(folder) if name.isdigit())
    except (FileNotFoundError, ProcessLookupError):
        return []


def threads_of(pid):
    """All threads of a process that have not ended."""
    return [thread for tid in numbers(f"/proc/{pid}/task") if (thread := thread_of(pid, tid))]


def all_threads():
    return [thread for pid in numbers("/proc") for thread in threads_of(pid)]


def is_monitor(thread):
    """Whether a thread is of conmon or of a shim of containerd, which watch over containers."""
    return re.match("conmon$|containerd-shim", thread.name) is not None


def has_ended(thread):
    now = thread_of(thread.pid, thread.tid)
    return now is None or now.start != thread.start
