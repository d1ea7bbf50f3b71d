"""crun and runc of Debian on a real kernel, with our library in libseccomp's place: a container of busybox runs under docker's section,
and the filter that was loaded, read back from the kernel, is that of `ccell export`."""
import os
import shutil

from guests import system
from guests.section import content_of
from harness.places import TOP
from kernel_side.sides import Tally

# Puts our library where Debian's is.
REPLACED = "for file in /system/usr/lib/*/libseccomp.so.2.*; do cp /host/libseccomp.so.2 $file; done"


def try_runtime(guest, tally, name, section, exported):
    """Runs a container that ends, and one whose filter is read back; returns how many instructions that had."""
    system.try_to_end(guest, tally, name, section)
    loaded, out = system.loaded_by(guest, name, section)
    # runc puts a stub of its own in front of each filter (docs/ENGINES.md, "runc").
    is_right = loaded == exported or (name == "runc" and len(loaded) > len(exported) and loaded.endswith(exported))
    tally.count(is_right, lambda: f"{name}: {len(loaded)} bytes were loaded, and {len(exported)} are exported: {out[-400:]}")
    return f"{name} {len(loaded) // 8}"


def run(guest, packages):
    """Tries both runtimes on a guest, after docker's section has been tried there."""
    tally = Tally("containers")
    library = f"{TOP}/dist/{guest.kernel.library}/libseccomp.so.2"
    if not guest.kernel.library or not os.path.exists(library):
        tally.untried.append("our library in libseccomp's place: none is built for this machine")
        return tally
    shutil.copyfile(library, f"{guest.share}/libseccomp.so.2")
    wrong = system.put(guest, packages) or (guest.run(REPLACED)[1] and b"our library is not copied")
    if wrong:
        tally.untried.append(f"all of it: the system is not mounted: {wrong.decode(errors='replace')}")
        return tally
    exported = content_of(f"{guest.share}/docker.bpf")
    lengths = [try_runtime(guest, tally, name, system.section_of(guest, "docker"), exported) for name in system.RUNTIMES]
    tally.kind += f" ({', '.join(lengths)} instructions)"
    return tally
