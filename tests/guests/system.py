"""Debian's crun and runc in a guest, in a system of their own: containers of busybox are started there, and the filter that the kernel has
then is read back."""
import glob
import json
import os
import shutil

from guests.guest import under_filter
from guests.packages import carried_out, unpack
from guests.section import content_of

RUNTIMES = {"crun": "crun --cgroup-manager=disabled", "runc": "runc"}
# What a system without a package manager has: the folders that packages share, and those that are mounted.
LINKS, MOUNTED = ("bin", "lib", "lib64", "sbin"), ("proc", "sys", "dev", "tmp", "run", "box/rootfs/bin", "box/rootfs/proc", "box/rootfs/dev")
# What of the packages no guest needs.
LEFT_OUT = ("doc", "man", "locale", "gconv", "bash-completion")
# Docker's of a container without options, but for what no container of this test needs.
CAPABILITIES = ["CAP_CHOWN", "CAP_FOWNER", "CAP_KILL", "CAP_SETGID", "CAP_SETUID", "CAP_SYS_CHROOT"]
NAMESPACES = ("pid", "mount", "ipc", "uts")
REFUSED = "refused"
# What a container does: it tells the machine, and asks for a namespace, which docker's section refuses.
INSIDE = f"uname -m; unshare -U true 2>/dev/null || echo {REFUSED}"
PID = "$(cat /system/pid)"


def unpacked(packages, folder):
    """The folder into which the runtimes and all that they ask for are unpacked, unless they are there."""
    system = f"{folder}/system"
    if not os.path.exists(f"{system}/usr/sbin/runc"):
        shutil.rmtree(system, ignore_errors=True)
        for name in LINKS:
            os.makedirs(f"{system}/usr/{name}", exist_ok=True)
            os.symlink(f"usr/{name}", f"{system}/{name}")
        for package in packages.with_all(*RUNTIMES):
            unpack(package, system)
    return system


def version_of_libseccomp(folder):
    """The version of Debian's libseccomp there, or nothing."""
    return "".join(path.rpartition(".so.")[2] for path in glob.glob(f"{folder}/system/usr/lib/*/libseccomp.so.*.*"))


def put(guest, packages):
    """Copies the system into the guest's memory, with a box with busybox in it, unless it is there; returns what went wrong, or nothing."""
    if guest.run("test -d /system/box")[1] == 0:
        return b""
    room = f"{guest.folder}/changed"
    shutil.rmtree(room, ignore_errors=True)
    shutil.copytree(unpacked(packages, guest.folder), room, symlinks=True, ignore=shutil.ignore_patterns(*LEFT_OUT))
    for name in MOUNTED:
        os.makedirs(f"{room}/{name}", exist_ok=True)
    shutil.copy(f"{guest.folder}/tools/usr/bin/busybox", f"{room}/box/rootfs/bin/busybox")
    carried_out(["tar", "-C", room, "-cf", f"{guest.share}/system.tar", "."])
    shutil.rmtree(room)
    out, status = guest.run(" && ".join([
        "mkdir -p /system",
        "mount -t tmpfs system /system",
        "tar -C /system -xf /host/system.tar",
        "chroot /system/box/rootfs /bin/busybox --install -s /bin",
        *(f"mount --bind /{name} /system/{name}" for name in ("proc", "sys", "dev")),
        "mount -t cgroup2 none /system/sys/fs/cgroup",
    ]))
    return out[-300:] or b"no word" if status else b""


def config(section, words):
    """The config.json of a container that runs these words under a section."""
    every = {kind: CAPABILITIES for kind in ("bounding", "effective", "permitted")}
    process = {"terminal": False, "user": {"uid": 0, "gid": 0}, "args": words, "env": ["PATH=/bin"], "cwd": "/", "capabilities": every}
    mounts = [{"destination": f"/{name}", "type": kind, "source": kind} for name, kind in (("proc", "proc"), ("dev", "tmpfs"))]
    return json.dumps({
        "ociVersion": "1.0.2", "process": {**process, "noNewPrivileges": True}, "root": {"path": "rootfs"}, "hostname": "box",
        "mounts": mounts, "linux": {"namespaces": [{"type": name} for name in NAMESPACES], "seccomp": section},
    })


def section_of(guest, name):
    """A section as `ccell adapt` wrote it for this guest, by its name."""
    with open(f"{guest.share}/{name}.json", encoding="utf-8") as file:
        return json.load(file)["linux"]["seccomp"]


def put_config(guest, section, words):
    """Puts the config.json of a container that runs these words where the guest has the box."""
    with open(f"{guest.share}/config.json", "w", encoding="utf-8") as file:
        file.write(config(section, words))
    guest.run("cp /host/config.json /system/box")


def try_to_end(guest, tally, name, section):
    """Runs a container that does what a container may, and is refused what it may not."""
    put_config(guest, section, ["/bin/sh", "-c", INSIDE])
    out, status = guest.run(f"chroot /system {RUNTIMES[name]} run -b /box {name}-a")
    lines = out.decode(errors="replace").split()
    tally.count(status == 0 and lines[-1:] == [REFUSED] and len(lines) == 2, lambda: f"{name}: a container: status {status}: {out[-400:]}")


def loaded_by(guest, name, section):
    """The bytes of the filter of a container that a runtime starts, also as `loaded` in the guest's folder, and what was told on the way."""
    runtime, loaded = f"chroot /system {RUNTIMES[name]}", f"{guest.share}/loaded"
    put_config(guest, section, ["/bin/sleep", "1000"])
    read_back = f"{under_filter(PID)}; /host/dump {PID} >/host/loaded"
    out, _ = guest.run(f"rm -f /host/loaded; {runtime} run -d --pid-file /pid -b /box {name}-b </dev/null >/dev/null && {{ {read_back}; }}; "
                       f"{runtime} kill {name}-b KILL; sleep 1; {runtime} delete -f {name}-b")
    return content_of(loaded) if os.path.exists(loaded) else b"", out
