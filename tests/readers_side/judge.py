"""What `ccell` and the readers make of texts, side by side."""
import glob
import os
import subprocess
import tempfile
from concurrent.futures import ThreadPoolExecutor

from harness.alike import SECTION, Definition, Members, members, read
from harness.fetched import cache
from harness.limits import ENDLESS
from harness.places import CCELL, TOP
from readers_side import meaning
from readers_side.built import OF_BUNDLES, OF_SECTIONS

MACHINE = "linux-x86-64"
# Members that docker passes over before 23: its struct has none of that name.
UNKNOWN_TO_DOCKER_20 = ("defaultErrnoRet", "flags", "listenerPath", "listenerMetadata")
SAID = "a line on standard error"
# Engines' default profiles, in their packages of Go.
DEFAULTS = ("docker/docker/profiles/seccomp/default.json", "containers/common/pkg/seccomp/seccomp.json")


def ccell(*words):
    """A run of the program."""
    return subprocess.run([CCELL, *words], capture_output=True, timeout=ENDLESS, check=False)


def reading(text, *words):
    """What `ccell` reads of a text, after `adapt` with some words, if there are any; and the text that it read."""
    with tempfile.TemporaryDirectory() as room:
        path = f"{room}/profile.json"
        with open(path, "wb") as file:
            file.write(text)
        if words:
            ran = ccell("adapt", MACHINE, path, *words[1:])
            if ran.returncode not in (0, 5):
                return meaning.REFUSED, b""
            text = ran.stdout
            with open(path, "wb") as file:
                file.write(text)
        ran = ccell("read", MACHINE, path, "rules")
    if ran.returncode:
        return meaning.REFUSED, text
    return (SAID if ran.stderr else meaning.of_text(ran.stdout.decode())), text


def readings(texts):
    """The same of many texts."""
    with ThreadPoolExecutor(os.cpu_count()) as pool:
        return [read for read, _ in pool.map(reading, texts)]


def passes_over(reader, text):
    """Whether a text has a member of the section that this reader has no place for (docker of Debian 12)."""
    value = read(text)
    return reader.name == "docker12" and isinstance(value, Members) and any(members(value, key) for key in UNKNOWN_TO_DOCKER_20)


def of_kind(readers, is_bundle):
    """The readers of bundles, or those of sections by themselves."""
    return [reader for reader in readers.values() if reader.name[:-2] in (OF_BUNDLES if is_bundle else OF_SECTIONS)]


def of_text(readers, text):
    """The readers that find something in a text: those of a kind of which it has a member at its top, so of both kinds all."""
    folded = Definition().folded
    top = {folded(key) for key, _ in read(text)}
    kinds = [is_bundle for is_bundle, keys in ((True, ("linux",)), (False, SECTION)) if any(folded(key) in top for key in keys)]
    return [reader for is_bundle in kinds for reader in of_kind(readers, is_bundle)]


def profiles():
    """The profiles of examples/ and of the engines' own packages, each with whether it is a bundle."""
    own = [path for name in DEFAULTS for path in glob.glob(f"{cache('readers')}/*/root/usr/share/gocode/src/github.com/{name}")]
    for path in sorted(glob.glob(f"{TOP}/examples/**/*.json", recursive=True)) + sorted(own):
        with open(path, "rb") as file:
            text = file.read()
        value = read(text)
        if isinstance(value, Members) and (members(value, "linux") or members(value, "defaultAction")):
            yield os.path.relpath(path, TOP), text, bool(members(value, "linux"))


def words_for(engine):
    """The words by which `adapt` makes a section for an engine on this kernel. The runtimes read a `config.json` as it is."""
    if engine in OF_BUNDLES:
        return ["adapt"]
    return ["adapt", "for", engine, "kernel", ".".join(os.uname().release.split(".")[:2])]


def there_and_back(reader, text, is_bundle):
    """What a reader reads of a profile, what `adapt` makes of it for that engine, and what the reader reads of that."""
    adapted, section = reading(text, *words_for(reader.name[:-2]))
    own = meaning.of_reader(reader.ask(text))
    if isinstance(adapted, str):
        return own, adapted, None
    given = b'{"ociVersion":"1.0.2","linux":{"seccomp":' + section + b"}}" if is_bundle else section
    return own, adapted, meaning.of_reader(reader.ask(given))
