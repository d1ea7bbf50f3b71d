"""Where engines keep their containers: as the processes that watch over containers say, and in the folders that engines have by default.

A shim of containerd runs in the folder of a container, whatever the engine and the namespace are. conmon, of podman and CRI-O, has the
folder, the file of the process and the name among its words. So it is with any storage, root or user. runc and crun keep a file of each
container that they started."""
import glob
import json
import os
import re
import shutil
import stat
from dataclasses import dataclass, field
from functools import lru_cache

from nodes.filters import run
from nodes.processes import is_monitor, read

TASKS = ["/run/containerd/io.containerd.runtime.v2.task/*", "/run/docker/containerd/daemon/io.containerd.runtime.v2.task/*",
         "/run/k3s/containerd/io.containerd.runtime.v2.task/*", "/var/snap/microk8s/common/run/containerd/io.containerd.runtime.v2.task/*"]
STORAGES = ["/var/lib/containers/storage/*-containers"]
RUNTIMES = ["/run/runc/*/state.json", "/run/crun/*/status"]
PID_FILES = "/run/containers/storage/*-containers/{}/userdata/pidfile"
LARGEST = 1 << 24
# Annotations in which engines tell what a container is.
TOLD = {"name": ["io.kubernetes.cri.container-name", "io.kubernetes.container.name", "nerdctl/name"],
        "image": ["io.kubernetes.cri.image-name", "io.kubernetes.cri-o.ImageName"],
        "pod": ["io.kubernetes.cri.sandbox-name", "io.kubernetes.pod.name", "io.kubernetes.cri-o.SandboxID"],
        "namespace": ["io.kubernetes.cri.sandbox-namespace", "io.kubernetes.pod.namespace"]}


@dataclass
class Container:
    """A container of which an engine keeps a folder. `process` is None if none is known; `fault` says what is wrong with its place."""
    id: str
    folder: str
    process: int = None
    config: bytes = b""
    fault: str = None
    has_stopped: bool = False
    told: dict = field(default_factory=dict)
    names: set = field(default_factory=set)


def content(path, owner=0):
    """The bytes of a file of root or of a user. A user may put a pipe there, a link to what is not his, or no end."""
    handle = os.open(path, os.O_RDONLY | os.O_NONBLOCK | os.O_NOCTTY | (os.O_NOFOLLOW if owner else 0))
    with open(handle, "rb") as file:
        about = os.fstat(handle)
        if not stat.S_ISREG(about.st_mode) or about.st_size > LARGEST or owner and about.st_uid != owner:
            raise OSError(f"{path} is no file of user {owner}, or too large")
        return file.read(LARGEST)


def root_of(pid):
    """Where files are as a process sees them: nowhere else, if it has this program's mounts."""
    return "" if os.readlink(f"/proc/{pid}/ns/mnt") == os.readlink("/proc/self/ns/mnt") else f"/proc/{pid}/root"


def parsed(path, owner=0):
    """What a file of JSON holds that tells of containers, nothing if it cannot be read."""
    try:
        return json.loads(content(path, owner))
    except (OSError, ValueError, RecursionError):
        return {}


class Places:
    """The containers that were found, each once, by the file of its config."""

    def __init__(self, threads):
        self.leaders = {thread.pid: thread for thread in reversed(threads)}
        self.cgroups = {path for thread in threads for _, path in thread.cgroups}
        self.found, self.faults, self.remarks = {}, [], []
        self.monitors = {pid for pid, leader in self.leaders.items() if is_monitor(leader)}

    def add(self, container, owner=0):
        """Adds a container, and returns it as it was found first. What a user says of a process counts only of his own monitor's children."""
        try:
            about = os.stat(f"{container.folder}/config.json")
            key = about.st_dev, about.st_ino
        except OSError as why:
            key, container.fault = container.folder, why.strerror
        if key in self.found:
            if self.found[key].process is None:
                self.found[key].process = container.process
            return self.found[key]
        if not container.fault:
            try:
                container.config = content(f"{container.folder}/config.json", owner)
            except OSError as why:
                container.fault = str(why)
        if owner and not self.is_watched(container.process, owner):
            container.process = None
        self.found[key] = container
        annotated(container)
        return container

    def is_watched(self, process, owner):
        """Whether a process is a child of a user's own monitor."""
        parent = self.leaders[process].parent if process in self.leaders else None
        return parent in self.monitors and self.leaders[parent].uid == owner

    def of_monitors(self):
        """What conmon and the shims of this node say."""
        for owner, pid in sorted((self.leaders[pid].uid, pid) for pid in self.monitors):
            try:
                if self.leaders[pid].name == "conmon":
                    self.of_conmon(pid, read(f"/proc/{pid}/cmdline").split("\0"), owner)
                else:
                    self.of_folder(root_of(pid) + os.path.dirname(os.readlink(f"/proc/{pid}/cwd")), owner)
            except ProcessLookupError:
                continue  # it has ended
            except (OSError, ValueError) as why:
                self.faults.append(f"process {pid}: {why}")

    def of_conmon(self, pid, words, owner):
        """A container by the words of its conmon. An exec's conmon has words of its own, and its process is one of the container's."""
        if "-e" in words or "--exec-attach" in words:
            return
        said = {word: words[place + 1] for place, word in enumerate(words[:-1]) if word in ("-b", "-c", "-n", "-p")}
        if not said.keys() >= {"-b", "-c", "-p"}:
            raise ValueError(f"conmon without -b, -c or -p: {' '.join(words)[:200]}")
        root = root_of(pid)
        container = Container(said["-c"], root + said["-b"], self.number_in(root + said["-p"], owner))
        container.told = {"name": said.get("-n", "")}
        in_storage(container, owner)
        self.add(container, owner)

    def number_in(self, path, owner=0):
        """The process whose number stands in a file."""
        try:
            return int(content(path, owner))
        except (OSError, ValueError):
            return None

    def of_folder(self, folder, owner=0):
        """The containers of a folder: ID/config.json and ID/init.pid as of containerd, or ID/userdata/config.json as of podman."""
        found = []
        for name in sorted(os.listdir(folder)):
            path = f"{folder}/{name}"
            if os.path.isdir(f"{path}/userdata"):
                if os.path.exists(f"{path}/userdata/config.json"):
                    found.append(self.of_podman(name, f"{path}/userdata", owner))
            elif os.path.exists(f"{path}/config.json") or os.path.exists(f"{path}/init.pid"):
                found.append(self.add(Container(name, path, self.number_in(f"{path}/init.pid", owner)), owner))
        return found

    def of_podman(self, name, path, owner):
        """A container of podman. If no conmon has it, the pid file of root's own says which process it has, unless another has the number
        now. Else its storage says that it is podman's, and no process is in a cgroup of its name: it has stopped."""
        container = Container(name, path, next(map(self.number_in, glob.glob(PID_FILES.format(glob.escape(name)))), None))
        leader = self.leaders.get(container.process)
        if leader and not leader.space and not any(name in cgroup for _, cgroup in leader.cgroups):
            container.process = None
        container.has_stopped = in_storage(container, owner) and not leader and not any(name in path for path in self.cgroups)
        return self.add(container, owner)

    def of_runtimes(self):
        """The containers that runc and crun keep a state of, whoever called them."""
        for path in (path for pattern in RUNTIMES for path in glob.glob(pattern)):
            state = parsed(path)
            if not isinstance(state, dict):
                state = {}
            labels = dict(label.partition("=")[::2] for label in state.get("config", {}).get("labels") or [])
            bundle = state.get("bundle") or labels.get("bundle")
            if not bundle:
                self.faults.append(f"{path}: no bundle")
                continue
            self.add(Container(os.path.basename(os.path.dirname(path)), bundle, state.get("pid") or state.get("init_process_pid")))

    def everywhere(self):
        """The containers of all places."""
        self.of_monitors()
        for folder in (folder for pattern in TASKS + STORAGES for folder in glob.glob(pattern)):
            self.of_folder(folder)
        self.of_runtimes()
        if any(leader.name == "dockerd" for leader in self.leaders.values()):
            self.of_docker()

    def of_docker(self):
        """Names and images, which docker keeps itself. It is asked only where it runs: a socket of systemd's would start it."""
        label = '{{json (.Label "io.kubernetes.pod.%s")}}'
        shown = "[{{json .ID}},{{json .Names}},{{json .Image}}," + label % "name" + "," + label % "namespace" + "]"
        docker = shutil.which("docker")
        status, told, said = run([docker, "ps", "--no-trunc", "--format", shown], limit=20) if docker else (None, b"", "no program docker")
        if status != 0:
            self.remarks.append(f"docker does not tell its names: {said.strip()}")
            return
        names = {row[0]: dict(zip(("name", "image", "pod", "namespace"), row[1:])) for row in map(json.loads, told.splitlines())}
        for container in self.found.values():
            container.told = {**names.get(container.id, {}), **container.told}


@lru_cache(None)
def storage(path, owner):
    """What the storage of podman says of its containers, by their IDs; nothing if a folder is none."""
    rows = parsed(path, owner)
    return {row["id"]: row for row in rows if isinstance(row, dict) and "id" in row} if isinstance(rows, list) else {}


def in_storage(container, owner):
    """Whether a container of podman stands in its storage; its image and name come from there."""
    row = storage(os.path.join(os.path.dirname(os.path.dirname(container.folder)), "containers.json"), owner).get(container.id)
    if row is None:
        return False
    try:
        about = json.loads(row["metadata"])
        container.told = {"name": str(about["name"]), "image": str(about["image-name"]), **container.told}
    except (KeyError, TypeError, ValueError, RecursionError):
        pass  # a storage may leave it out
    return True


def annotated(container):
    """Adds what a config tells of a container: the name of its cgroup, and annotations, a user's words, by which nothing is judged."""
    container.names.add(container.id)
    try:
        config = json.loads(container.config)
        container.names |= {name for name in [re.split("[/:]", config["linux"].get("cgroupsPath", ""))[-1]] if name}
        annotations = config.get("annotations") or {}
        for what, keys in TOLD.items():
            if value := next((annotations[key] for key in keys if isinstance(annotations.get(key), str)), None):
                container.told[what] = value
    except (ValueError, AttributeError, KeyError, TypeError, RecursionError):
        return
