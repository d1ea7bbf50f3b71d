"""Which threads of a node are of which container, and what is said of each."""
import os
import re
import time

from nodes.judging import RIGHT, Verdict
from nodes.processes import all_threads, is_monitor, plain

PASSES, PAUSE = 8, 0.3
ID = re.compile(r"[0-9a-f]{64}|^(?:libpod|crio|cri-containerd|docker|buildah|kubepods|lxc\.payload|machine)[-.:]|^kubepods$|^lxc$")


def own_part(path, names, outside):
    """The part of a cgroup's path up to the container's own, nothing if it has none: its last part is named for the container, and the
    process that watches over it is not below."""
    parts = path.split("/")
    for end, part in enumerate(parts, 1):
        if any(part == name or re.search(rf"[-:]{re.escape(name)}(?:\.scope)?$", part) for name in names):
            own = "/".join(parts[:end])
            return None if is_below(outside, own) else own
    return path if outside is not None and path != "/" and not is_below(outside, path) else None


def is_below(path, above):
    return path is not None and above is not None and (path + "/").startswith(above.rstrip("/") + "/")


class Owners:
    """The containers of the threads of one listing: by the cgroup, else by the namespace of processes, else by the parent."""

    def __init__(self, threads, containers):
        self.leaders = {thread.pid: thread for thread in reversed(threads)}
        self.cgroups, self.spaces, self.firsts, self.known = {}, {}, {}, {}
        for container in containers:
            if first := self.leaders.get(container.process):
                self.enter(container, first)

    def enter(self, container, first):
        self.firsts.setdefault(first.pid, []).append(container)
        if first.space:
            self.spaces.setdefault(first.space, {}).setdefault(first.pid, []).append(container)
        above = self.leaders.get(first.parent) if first.parent > 1 else None
        outside = dict(above.cgroups) if above else {}
        for tree, path in first.cgroups:
            if own := own_part(path, container.names, outside.get(tree)):
                self.cgroups.setdefault((tree, own), []).append(container)

    def by_cgroup(self, thread):
        """The containers whose own cgroup is the nearest above a thread."""
        found = [(len(path[:end]), self.cgroups[tree, path[:end]]) for tree, path in thread.cgroups
                 for end in range(1, len(path) + 1) if (end == len(path) or path[end] == "/") and (tree, path[:end]) in self.cgroups]
        return max(found, key=lambda row: row[0])[1] if found else []

    def of(self, thread):
        """The containers that a thread is judged for. Several have one only if they claim the same first process, or the same cgroup."""
        if thread.key not in self.known:
            self.known[thread.key] = []  # no parent is one's own child
            self.known[thread.key] = self.firsts.get(thread.pid) or self.by_cgroup(thread) or self.by_space(thread) or self.by_parent(thread)
        return self.known[thread.key]

    def by_space(self, thread):
        processes = self.spaces.get(thread.space, {})  # none for this program's own
        return next(iter(processes.values())) if len(processes) == 1 else []

    def by_parent(self, thread):
        parent = self.leaders.get(thread.parent)
        return self.of(parent) if parent and thread.parent > 1 else []

    def why_contained(self, thread):
        """Why a thread that no container has is one's all the same; nothing if it is none."""
        parts = [part for _, path in thread.cgroups for part in path.split("/")]
        if any(map(ID.search, parts)) and not is_monitor(thread):
            return "its cgroup is named as a container's"
        if thread.space:
            return "it has a namespace of processes of its own"
        parent = self.leaders.get(thread.parent)
        if parent and parent.name.startswith("memfd:buildah") and not thread.name.startswith("memfd:buildah"):
            return "buildah runs it without a runtime"
        is_watched = parent and is_monitor(parent) and not is_monitor(thread) and mounts_of(thread) != mounts_of(parent)
        return "its parent watches over containers" if is_watched else None


def mounts_of(thread):
    try:
        return os.readlink(f"/proc/{thread.pid}/ns/mnt")
    except OSError:
        return None


class Looks:
    """What was seen of threads, and the verdicts on them."""

    def __init__(self, filters, judge):
        self.filters, self.judge, self.seen = filters, judge, {}

    def at(self, thread, container):
        """The verdict on a thread, with its filters and the place of the one that counts; None if it has ended."""
        if container.fault:
            return Verdict("not-read", f"is not read: {plain(container.fault)}"), None, 0
        self.judge.about = container.id
        bundle, settled = self.judge.adapted(container.config)
        digests, reason = self.filters.of(thread, container.id)
        if digests is None and reason is None:
            return None
        if bundle is None and digests is not None:
            return settled, digests, 0
        if digests is None:
            return Verdict("not-judged", f"was not judged: {reason}"), None, 0
        verdict, place = self.judge.stack(bundle, settled, digests)
        return verdict, digests, place

    def once(self, containers):
        """Lists all threads, and looks at each that was not, or was not right. Returns those of containers, with their verdicts, those that
        no line is on, and whether something was new."""
        threads = all_threads()
        owners, judged, left, is_new = Owners(threads, containers), {}, [], False
        for thread in threads:
            for container in owners.of(thread):
                key = thread.key, container.folder
                if key not in self.seen or self.seen[key][0].name not in RIGHT:
                    is_new |= key not in self.seen
                    self.seen[key] = self.at(thread, container)
                if self.seen[key] is None:
                    del self.seen[key]
                else:
                    judged.setdefault(container.folder, []).append((thread, *self.seen[key]))
            if not owners.of(thread) and (why := owners.why_contained(thread)):
                left.append((thread, why))
        return judged, left, is_new

    def all(self, containers, is_whole):
        """Goes through the node until nothing is new. What is wrong may be on its way, as an exec that has no filter yet: only what two
        listings in a row do not show counts for nothing."""
        steady, was_wrong, ever_wrong = 0, False, False
        for _ in range(PASSES):
            judged, left, is_new = self.once(containers)
            left = left if is_whole else []
            is_wrong = bool(left) or any(row[1].name not in RIGHT for rows in judged.values() for row in rows)
            ever_wrong |= is_wrong
            steady = steady + 1 if not is_new and is_wrong == was_wrong else 0
            if steady > int(ever_wrong):
                break
            was_wrong = is_wrong
            time.sleep(PAUSE if is_wrong else 0)
        return judged, left
