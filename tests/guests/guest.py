"""A guest: a kernel of Debian under an emulator, with a folder of this machine, that carries out commands."""
import glob
import lzma
import os
import shutil
import signal
import socket
import subprocess
import time

from guests.kernels import MODULES
from guests.packages import carried_out, unpack_files
from harness.limits import ENDLESS
from harness.rows import Fault

HERE = os.path.dirname(os.path.abspath(__file__))
# Where Debian's packages have a kernel.
IMAGES = ("*/boot/vmlinu?-*", "*/lib/modules/*/vmlinuz")
# What every kernel is told: nothing is logged on the console but what the first process writes, and what slows an emulator down is left
# out. No filter is judged otherwise for it.
TOLD = "panic=-1 loglevel=1 audit=0 mitigations=off nokaslr"


def images(folder):
    """The kernel of a guest, or nothing."""
    return [path for name in IMAGES for path in glob.glob(f"{folder}/kernel/{name}".replace("*/", "**/", 1), recursive=True)]


def prepare(kernel, packages, folder, image=None):
    """Unpacks the kernel and the tools of a guest into its folder, unless they are there. `image` is the kernel's package, if it is to be
    another one than the newest."""
    if not images(folder):
        wanted = [*IMAGES, *(f"*/lib/modules/*/kernel/{name}.ko*" for name in MODULES)]
        for name in packages.kernel_of(image or kernel.image):
            unpack_files(packages.alone(name), f"{folder}/kernel", wanted)
    if not os.path.exists(f"{folder}/tools/usr/bin/busybox"):
        unpack_files(packages.alone("busybox-static"), f"{folder}/tools", ["*/usr/bin/busybox"])


def module(folder, name):
    """The bytes of a module of the kernel, or None where it has none of this name."""
    for path in glob.glob(f"{folder}/kernel/usr/lib/modules/*/kernel/{name}.ko*"):
        with (lzma.open if path.endswith(".xz") else open)(path, "rb") as file:
            return file.read()
    return None


def write_first(folder):
    """Writes the file system with which the kernel begins."""
    root = f"{folder}/first"
    shutil.rmtree(root, ignore_errors=True)
    os.makedirs(f"{root}/bin")
    os.makedirs(f"{root}/modules")
    shutil.copy(f"{folder}/tools/usr/bin/busybox", f"{root}/bin/busybox")
    os.symlink("busybox", f"{root}/bin/sh")
    shutil.copy(f"{HERE}/init.sh", f"{root}/init")
    os.chmod(f"{root}/init", 0o755)
    with open(f"{root}/modules/list", "w", encoding="utf-8") as names:
        for name in MODULES:
            made, short = module(folder, name), f"{os.path.basename(name)}.ko"
            if made:
                names.write(f"{short}\n")
                with open(f"{root}/modules/{short}", "wb") as file:
                    file.write(made)
    carried_out(["sh", "-c", "find . | cpio --quiet -o -H newc | gzip -1 > ../first.gz"], cwd=root)


def under_filter(pid):
    """The command that waits until a process has a filter, which takes an emulator its time."""
    return f"for _ in $(seq 120); do grep -q '^Seccomp:.2' /proc/{pid}/status && break; sleep 1; done"


class Guest:
    """A guest that runs until it is stopped."""

    def __init__(self, kernel, folder):
        self.kernel, self.folder, self.share = kernel, folder, f"{folder}/share"
        os.makedirs(self.share, exist_ok=True)
        self.process = self.port = None

    def words(self):
        """What is called to boot it."""
        kernel, bus = self.kernel, self.kernel.bus
        return [
            kernel.emulator, *kernel.board, "-accel", "tcg,thread=single", "-smp", "1", "-m", str(kernel.memory),
            "-nographic", "-nodefaults", "-no-reboot", "-serial", "stdio",
            "-kernel", images(self.folder)[0], "-initrd", f"{self.folder}/first.gz",
            "-append", f"console={kernel.console} {TOLD} {kernel.further}",
            "-device", f"virtio-serial-{bus}", "-chardev", f"socket,id=c,path={self.folder}/port,server=on,wait=off",
            "-device", "virtserialport,chardev=c,name=cmd",
            "-fsdev", f"local,id=h,path={self.share},security_model=none",
            "-device", f"virtio-9p-{bus},fsdev=h,mount_tag=host",
        ]

    def boot(self, seconds=ENDLESS):
        """Boots it, and returns once it takes commands."""
        log = f"{self.folder}/console"
        with open(log, "wb") as file:
            self.process = subprocess.Popen(self.words(), stdin=subprocess.DEVNULL, stdout=file, stderr=subprocess.STDOUT)
        end = time.time() + seconds
        while b"READY /dev/" not in self.console():
            if self.process.poll() is not None or time.time() > end:
                self.stop()
                raise Fault(f"the guest does not boot; its console: {self.console()[-600:].decode(errors='replace')}")
            time.sleep(1)
        self.port = socket.socket(socket.AF_UNIX)
        self.port.connect(f"{self.folder}/port")

    def console(self):
        """What it wrote on its console."""
        with open(f"{self.folder}/console", "rb") as file:
            return file.read()

    def run(self, line, seconds=ENDLESS):
        """What a command line writes, and its status."""
        told = f"{self.share}/told"
        if os.path.exists(told):
            os.unlink(told)
        self.port.settimeout(seconds)
        self.port.sendall(f"{line}\n".encode())
        answer = b""
        try:
            while not answer.endswith(b"\n"):
                more = self.port.recv(4096)
                if not more:
                    raise Fault(f"the guest ended; its console: {self.console()[-600:].decode(errors='replace')}")
                answer += more
        except TimeoutError as late:
            raise Fault(f"the guest does not answer to {line[:80]}") from late
        with open(told, "rb") as file:
            return file.read(), int(answer.split()[-1])

    def stop(self):
        """Ends it."""
        if self.port:
            self.port.close()
        if self.process and self.process.poll() is None:
            self.process.send_signal(signal.SIGTERM)
            try:
                self.process.wait(20)
            except subprocess.TimeoutExpired:
                self.process.kill()
                self.process.wait()
