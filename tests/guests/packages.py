"""Debian's packages of another architecture, by an apt whose state is in a folder of its own: this machine's is not touched."""
import fnmatch
import glob
import os
import shutil
import subprocess
import tarfile

from harness.rows import Fault

KEYS = "/usr/share/keyrings/debian-archive-keyring.gpg"
SETTINGS = """Dir "{folder}";
Dir::State::status "{folder}/var/lib/dpkg/status";
APT::Architecture "{debian}";
APT::Architectures {{ "{debian}"; }};
APT::Sandbox::User "root";
APT::Install-Recommends "false";
APT::Default-Release "{suite}";
Acquire::Languages "none";
"""
# How the names of packages begin that have parts of a kernel.
OF_A_KERNEL = ("linux-image-", "linux-binary-", "linux-modules-")
FOLDERS = ("etc/apt/apt.conf.d", "etc/apt/preferences.d", "etc/apt/trusted.gpg.d", "var/lib/apt/lists/partial",
           "var/cache/apt/archives/partial", "var/lib/dpkg")


def carried_out(words, **options):
    """What a command writes."""
    ran = subprocess.run(words, capture_output=True, check=False, **options)
    if ran.returncode:
        raise Fault(f"{' '.join(words[:3])}: status {ran.returncode}: {ran.stderr.decode(errors='replace')[-400:].strip()}")
    return ran.stdout


class Packages:
    """The packages of an architecture and a suite."""

    def __init__(self, folder, debian, suite, mirror, given=()):
        self.folder = folder
        self.given = list(given)
        for name in FOLDERS:
            os.makedirs(f"{folder}/{name}", exist_ok=True)
        self.write("apt.conf", SETTINGS.format(folder=folder, debian=debian, suite=suite))
        suites = dict.fromkeys((suite.removesuffix("-backports"), suite))
        self.write("etc/apt/sources.list", "".join(f"deb [arch={debian} signed-by={KEYS}] {mirror} {name} main\n" for name in suites))
        self.write("var/lib/dpkg/status", "")
        self.is_new = True

    def write(self, name, text):
        """Writes a file of apt's."""
        with open(f"{self.folder}/{name}", "w", encoding="utf-8") as file:
            file.write(text)

    def apt(self, *words):
        """What a command of apt writes."""
        if self.is_new:
            self.is_new = False
            self.apt("apt-get", "-qq", "update")
        settings = {**os.environ, "APT_CONFIG": f"{self.folder}/apt.conf", "LC_ALL": "C"}
        return carried_out(list(words), cwd=self.folder, env=settings).decode()

    def kernel_of(self, image):
        """The packages that have the kernel and its modules, of the package that names the newest one, or of one that has it."""
        found, left = [image], [image]
        while left:
            name = left.pop()
            asked = [line.strip().partition(": ") for line in self.apt("apt-cache", "depends", name).splitlines()]
            parts = [other for kind, _, other in asked if kind == "Depends" and other.startswith(OF_A_KERNEL)]
            left += [other for other in parts if other not in found]
            found += [other for other in parts if other not in found]
        return found

    def alone(self, name):
        """The file of a package, without those that it asks for."""
        return self.each_alone(name)[0]

    def each_alone(self, *names):
        """The same of several packages."""
        missing = [name for name in names if not glob.glob(f"{self.folder}/{name}_*.deb")]
        if missing:
            self.apt("apt-get", "-qq", "download", *missing)
        return [glob.glob(f"{self.folder}/{name}_*.deb")[0] for name in names]

    def with_all(self, *names):
        """The files of packages and of all that they ask for: the given ones where these have the name."""
        kept = f"{self.folder}/{names[0]}"
        os.makedirs(f"{kept}/partial", exist_ok=True)
        self.apt("apt-get", "-qq", "-y", "--download-only", "-o", f"Dir::Cache::archives={kept}", "install", *names, *self.given)
        return sorted([*glob.glob(f"{kept}/*.deb"), *self.given])


def unpack(package, into):
    """Unpacks a package."""
    os.makedirs(into, exist_ok=True)
    with subprocess.Popen(["dpkg-deb", "--fsys-tarfile", package], stdout=subprocess.PIPE) as tar:
        carried_out(["tar", "-x", "-C", into, "--no-same-owner", "--keep-directory-symlink"], stdin=tar.stdout)


def unpack_files(package, into, patterns):
    """Unpacks the files of a package that have such names."""
    with subprocess.Popen(["dpkg-deb", "--fsys-tarfile", package], stdout=subprocess.PIPE) as tar:
        with tarfile.open(fileobj=tar.stdout, mode="r|") as members:
            for member in members:
                if member.isfile() and any(fnmatch.fnmatch(member.name, pattern) for pattern in patterns):
                    path = os.path.join(into, os.path.normpath(member.name))
                    os.makedirs(os.path.dirname(path), exist_ok=True)
                    with open(path, "wb") as file, members.extractfile(member) as whole:
                        shutil.copyfileobj(whole, file)
                    os.chmod(path, member.mode & 0o755)
