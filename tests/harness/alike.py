"""A text that every reader reads alike, by the readers of docker, podman, containerd, runc and crun.

What `ccell` asks anyway keeps other texts apart: UTF-8, one text of JSON, types, no null, no sign, no index twice. This is what is to hold
besides. A *known key* is one that any of the readers knows in that object.

- **Kind**: the text is a bundle, or a section by itself, and has no member of the other kind at its top.
- **Case**: no key is a known one once it is folded. Readers of Go compare without case, and take U+017F for `s` and U+212A for `k`.
- **NUL**: the same of a key up to U+0000, where crun's reader ends it. No name has U+0000.
- **Once**: a known key stands once. crun takes the first of two, and readers of Go merge them.
- **Own members**: a section has none that only some readers read.
"""
import json

ROOT, LINUX = ("ociVersion", "linux"), ("seccomp",)
SECTION = ("defaultAction", "defaultErrnoRet", "architectures", "flags", "listenerPath", "listenerMetadata", "syscalls")
ENTRY, ARGUMENT = ("names", "action", "errnoRet", "args", "comment"), ("index", "value", "valueTwo", "op")
OWN_OF_SECTION, OWN_OF_ENTRY = ("defaultErrno", "archMap"), ("name", "errno", "includes", "excludes")
# The parts of the definition that a test may leave out, to see that they are needed.
CASE, NUL, KIND, ONCE, OWN = "case", "NUL", "kind", "once", "own members"
PARTS = (CASE, NUL, KIND, ONCE, OWN)


class Members(list):
    """An object of JSON: its members in order."""


def read(text):
    """The value of a text of JSON, or None."""
    try:
        return json.loads(text.decode(), object_pairs_hook=Members, parse_constant=lambda _: 1 / 0)
    except (UnicodeDecodeError, ValueError, ZeroDivisionError, RecursionError):
        return None


def members(value, key):
    """The values of a key in an object."""
    return [other for name, other in value if name == key] if isinstance(value, Members) else []


def elements(values):
    """The elements of the lists among some values."""
    return [element for value in values if isinstance(value, list) and not isinstance(value, Members) for element in value]


class Definition:
    """The definition, or what is left of it without some parts."""

    def __init__(self, without=()):
        self.parts = [part for part in PARTS if part not in without]

    def folded(self, key):
        """What the readers may take a key for."""
        if NUL in self.parts:
            key = key.partition("\0")[0]
        if CASE in self.parts:
            key = "".join({"\u017f": "s", "\u212a": "k"}.get(c, c.lower() if c.isascii() else c) for c in key)
        return key

    def breaches(self, value, known):
        """The keys of an object that some reader takes for another, or that stand twice."""
        names = {self.folded(name): name for name in known}
        seen = set()
        for key, _ in value:
            name = names.get(self.folded(key))
            if name is None:
                continue
            if name != key:
                yield f"{key!a} is {name} to some readers"
            if ONCE in self.parts and name in seen:
                yield f"{key!a} stands twice"
            seen.add(name)

    def kind_of(self, value):
        """The sections of a text, and whether it is a bundle; or None for a text of both kinds or of neither."""
        top = {self.folded(key) for key, _ in value}
        is_bundle = self.folded("linux") in top
        is_section = any(self.folded(key) in top for key in SECTION + OWN_OF_SECTION)
        if KIND in self.parts and is_bundle == is_section:
            return None, is_bundle
        return members(members(value, "linux")[-1], "seccomp") if is_bundle and members(value, "linux") else [value], is_bundle

    def reasons(self, text):
        """Why readers may read a text otherwise; none if all read it alike."""
        value = read(text)
        if not isinstance(value, Members):
            return ["no object of JSON"]
        sections, is_bundle = self.kind_of(value)
        if not sections:
            return ["both kinds, or neither"]
        found = []
        if is_bundle:
            found += self.breaches(value, ROOT)
            for linux in members(value, "linux"):
                found += self.breaches(linux, LINUX) if isinstance(linux, Members) else ["no object"]
        for section in sections:
            found += self.of_section(section, is_bundle) if isinstance(section, Members) else ["no object"]
        return found

    def of_section(self, section, is_bundle):
        """The same of a section."""
        yield from self.breaches(section, SECTION + OWN_OF_SECTION)
        yield from self.own(section, OWN_OF_SECTION, is_bundle)
        for entry in elements(members(section, "syscalls")):
            if not isinstance(entry, Members):
                yield "no object"
                continue
            yield from self.breaches(entry, ENTRY + OWN_OF_ENTRY)
            yield from self.own(entry, OWN_OF_ENTRY, is_bundle)
            if NUL in self.parts and any(isinstance(name, str) and "\0" in name for name in elements(members(entry, "names"))):
                yield "a name with U+0000"
            for argument in elements(members(entry, "args")):
                yield from self.breaches(argument, ARGUMENT) if isinstance(argument, Members) else ["no object"]

    def own(self, value, keys, is_bundle):
        """Members of a section by itself that only some engines read."""
        if OWN in self.parts and not is_bundle:
            yield from (f"{key} is read by some readers alone" for key, _ in value if key in keys)
