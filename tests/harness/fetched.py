"""Packages of Debian for a test, unpacked in the user's cache. An apt with a state of its own fetches them: this machine's is not touched."""
import os
import platform
import shutil

from guests.packages import KEYS, Packages, unpack

MIRROR = "http://deb.debian.org/debian"


class NotHere(Exception):
    """What a test lacks, and may not fetch."""


def need_compiler():
    """Tells if nothing can be compiled here for x86-64."""
    if platform.machine() != "x86_64":
        raise NotHere("this machine is no x86-64")
    if not shutil.which(os.environ.get("CC", "cc").split()[0]):
        raise NotHere("there is no compiler of C")


def cache(name):
    """A folder in the user's cache."""
    return f"{os.environ.get('XDG_CACHE_HOME') or os.path.expanduser('~/.cache')}/ccell-{name}"


def packages(folder, suite):
    """The packages of a suite, whose files are kept in a folder."""
    return Packages(folder, "amd64", suite, MIRROR)


def refuse(suite, names):
    """Tells of packages that would have to be fetched."""
    raise NotHere(f"these packages of Debian's suite {suite} have not been fetched, as a run by hand does: {' '.join(names)}")


def unpacked(folder, suite, names, fetches):
    """A folder with these packages of a suite, which are fetched if they are not there."""
    root, stamp = f"{folder}/{suite}/root", f"{folder}/{suite}/unpacked"
    wanted = "".join(f"{name}\n" for name in names)
    if os.path.exists(stamp) and open(stamp, encoding="utf-8").read() == wanted:
        return root
    if not fetches:
        refuse(suite, names)
    shutil.rmtree(root, ignore_errors=True)
    for file in packages(f"{folder}/{suite}", suite).each_alone(*names):
        unpack(file, root)
    with open(stamp, "w", encoding="utf-8") as file:
        file.write(wanted)
    return root


def source(folder, suite, name, fetches):
    """A folder with the source of a package as its authors made it, without Debian's changes."""
    kept = f"{folder}/{suite}-{name}"
    if os.path.exists(f"{kept}/unpacked"):
        return f"{kept}/unpacked"
    if not fetches:
        refuse(suite, [f"{name} (its source)"])
    apt = packages(kept, suite)
    apt.write("etc/apt/sources.list", f"deb-src [signed-by={KEYS}] {MIRROR} {suite} main\n")
    apt.apt("apt-get", "-qq", "--tar-only", "--download-only", "source", name)
    (archive,) = (file for file in os.listdir(kept) if ".orig.tar." in file and not file.endswith(".asc"))
    shutil.rmtree(f"{kept}/begun", ignore_errors=True)
    shutil.unpack_archive(f"{kept}/{archive}", f"{kept}/begun")
    (inner,) = os.listdir(f"{kept}/begun")
    os.rename(f"{kept}/begun/{inner}", f"{kept}/unpacked")
    return f"{kept}/unpacked"
