"""The filters of a thread, read back from the kernel by the program of dump.c."""
import hashlib
import subprocess
import tempfile
import time
from pathlib import Path

from nodes.processes import has_ended, plain

PATIENCE, SLOW, TRIES = 20, 4, 3  # seconds, seconds, threads of one place that do not stop


def run(words, folder=None, limit=300):
    """The status of a program, or None if it did not end by itself, what it writes, and what it says on standard error."""
    try:
        done = subprocess.run(words, cwd=folder, stdin=subprocess.DEVNULL, capture_output=True, timeout=limit, check=False)
    except subprocess.TimeoutExpired:
        return None, b"", f"{words[0]} did not end in {limit} seconds"
    status = done.returncode if done.returncode >= 0 else None
    return status, done.stdout, done.stderr.decode(errors="surrogateescape")


class Filters:
    """Filters that were read, each once, by the SHA-256 of its bytes, as files in a folder."""

    def __init__(self, dump, room):
        self.dump, self.room, self.slow, self.lengths = dump, room, {}, {}

    def path(self, digest):
        return self.room / f"{digest}.bpf"

    def of(self, thread, place):
        """The digests of a thread's filters, the oldest first, and why they are not known. Both are None if it has ended."""
        if thread.mode == "0":
            return (), None
        if thread.mode != "2":
            return None, f"Seccomp: {plain(thread.mode)}"
        slow = self.slow.setdefault(place, {})
        if thread.key in slow or len(slow) >= TRIES:
            return None, slow.get(thread.key, f"not asked, since {TRIES} others do not stop")
        began = time.monotonic()
        try:
            digests, reason = self.dumped(thread)
        except OSError as why:
            digests, reason = None, plain(str(why))
        if reason and has_ended(thread):
            return None, None
        if reason and time.monotonic() - began > SLOW:
            slow[thread.key] = reason
        return digests, reason

    def dumped(self, thread):
        with tempfile.TemporaryDirectory(dir=self.room) as folder:
            status, _, said = run([self.dump, str(thread.tid), "all"], folder, PATIENCE)
            paths = sorted(Path(folder).iterdir(), key=lambda path: int(path.name.split(".")[1]))
            if status != 0:
                return None, plain(" ".join(said.split())) or f"{self.dump} failed"
            if [path.name for path in paths] != [f"{thread.tid}.{place}.bpf" for place in range(max(1, thread.count, len(paths)))]:
                return None, f"{len(paths)} files came of {self.dump}, of {thread.count} filters"
            return tuple(self.kept(path.read_bytes()) for path in paths), None

    def kept(self, content):
        if not content or len(content) % 8:
            raise OSError(f"{self.dump} wrote {len(content)} bytes")
        digest = hashlib.sha256(content).hexdigest()
        if digest not in self.lengths:
            self.path(digest).write_bytes(content)
            self.lengths[digest] = len(content) // 8  # behind a write that did not fail
        return digest
