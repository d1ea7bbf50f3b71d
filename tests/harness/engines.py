"""Engines of this machine for a test: podman as it is installed, and a dockerd of the test's own."""
import contextlib
import os
import shutil
import subprocess
import time

from harness.places import TOP

# crun asks for one kind of cgroups: each command sees a folder of the newer kind, in mounts of its own.
MOUNTS = 'umount -R /sys/fs/cgroup; mount -t cgroup2 none /sys/fs/cgroup && exec "$@"'
NEWER_CGROUPS = ["unshare", "-m", "sh", "-c", MOUNTS, "sh"]
LIMITS = ["--network", "none", "--ulimit", "nofile=1024:1024", "--ulimit", "nproc=1024:1024"]


def lacking(*programs):
    """What is not there to start containers with these programs."""
    if os.geteuid() != 0:
        return "root"
    return next((name for name in ["busybox", *programs] if shutil.which(name) is None), None)


def root_of(folder):
    """The root of a container in a folder: busybox alone."""
    os.makedirs(f"{folder}/rootfs/bin")
    shutil.copy(shutil.which("busybox"), f"{folder}/rootfs/bin/busybox")
    return f"{folder}/rootfs"


class Podman:
    """podman with a runtime, and storage in a folder."""

    def __init__(self, runtime, folder):
        self.name, self.runtime, self.folder = f"podman with {runtime}", runtime, folder
        self.root = root_of(folder)
        self.image = [*LIMITS, *(["--cgroups", "disabled"] if runtime == "crun" else []), "--rootfs", self.root]
        words = [f"--root={folder}/storage", f"--runroot={folder}/run", "--storage-driver=vfs", "--cgroup-manager=cgroupfs",
                 f"--runtime={runtime}"]
        within = " ".join(f"'{word}'" for word in NEWER_CGROUPS) if runtime == "crun" else ""
        self.command = f"{folder}/podman"
        with open(self.command, "w", encoding="utf-8") as file:
            file.write(f'#!/bin/sh\nexec {within} podman {" ".join(words)} "$@"\n')
        os.chmod(self.command, 0o755)
        self.env = dict(os.environ)


class Docker:
    """A dockerd and a containerd of the test's own, and an image of busybox."""

    def __init__(self, folder):
        self.name, self.runtime, self.command, self.image = "docker", "runc", "docker", ["--network", "none", "place"]
        with open(f"{folder}/daemon.json", "w", encoding="utf-8") as file:
            file.write("{}")
        self.folder, self.env = folder, {**os.environ, "DOCKER_HOST": f"unix://{folder}/socket"}
        # A dockerd waits for the containerd of the system where that has left its socket.
        self.daemons = [
            self.started("containerd", f"--root={folder}/content", f"--state={folder}/tasks", f"--address={folder}/containerd"),
            self.started("dockerd", f"--config-file={folder}/daemon.json", f"--data-root={folder}/data", f"--exec-root={folder}/run",
                         f"--pidfile={folder}/pid", f"--containerd={folder}/containerd", "-H", self.env["DOCKER_HOST"], "--bridge=none",
                         "--iptables=false", "--ip6tables=false", "--storage-driver=vfs")]
        root_of(folder)

    def started(self, *command):
        """A daemon, whose lines go into the folder's log."""
        with open(f"{self.folder}/log", "a", encoding="utf-8") as log:
            return subprocess.Popen(command, stdin=subprocess.DEVNULL, stdout=log, stderr=log)

    def is_ready(self):
        """Whether the daemon answers and has the image."""
        for _ in range(60):
            if subprocess.run(["docker", "version"], env=self.env, capture_output=True, check=False).returncode == 0:
                made = f"tar -C {self.folder}/rootfs -c . | docker import - place"
                return subprocess.run(["sh", "-c", made], env=self.env, capture_output=True, check=False).returncode == 0
            time.sleep(0.5)
        return False

    def close(self):
        """Ends the daemons, dockerd first."""
        for daemon in reversed(self.daemons):
            daemon.terminate()
            try:
                daemon.wait(30)
            except subprocess.TimeoutExpired:
                daemon.kill()


@contextlib.contextmanager
def opened(name, folder):
    """An engine by its name: `docker`, or a runtime of podman."""
    if name != "docker":
        yield Podman(name, folder)
        return
    engine = Docker(folder)
    try:
        yield engine
    finally:
        engine.close()


def without_filter(engine):
    """Why an engine starts no container here even without a filter: nothing if it does."""
    name = f"bare-{os.getpid()}"
    try:
        came = subprocess.run([engine.command, "run", "--rm", "--name", name, "--security-opt", "seccomp=unconfined", *engine.image, "/bin/busybox",
                               "true"], env=engine.env, stdin=subprocess.DEVNULL, capture_output=True, text=True, timeout=120, check=False)
    except subprocess.TimeoutExpired:
        return "it does not end within two minutes"
    return None if came.returncode == 0 else f"{came.stdout}{came.stderr}".strip()


def with_section(engine, section, *options):
    """What examples/engines/with-section says of a container under this section: nothing if it runs under a filter."""
    came = subprocess.run([f"{TOP}/examples/engines/with-section", engine.command, section, *options, *engine.image, "/bin/busybox", "sleep", "60"],
                          env=engine.env, stdin=subprocess.DEVNULL, capture_output=True, text=True, timeout=120, check=False)
    return None if came.returncode == 0 else f"{' '.join(options)}: {came.stdout}{came.stderr}"
