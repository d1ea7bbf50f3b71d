"""Random and hostile texts: a profile, with up to two twists that a reader may take otherwise than another."""
import json
import random

from harness.alike import Members

CALLS = ("read", "write", "openat", "socket", "personality", "clone", "setns", "ptrace", "mount", "bpf", "ioctl", "prctl", "fcntl", "keyctl",
         "clone3", "chroot", "unshare", "fchmodat2", "umount", "socketcall", "arch_prctl")
ACTIONS = tuple(f"SCMP_ACT_{name}" for name in "ALLOW ERRNO KILL KILL_PROCESS KILL_THREAD TRAP LOG TRACE NOTIFY".split())
OPERATORS = tuple(f"SCMP_CMP_{name}" for name in "NE LT LE EQ GE GT MASKED_EQ".split())
X86_64, X86, X32 = "SCMP_ARCH_X86_64", "SCMP_ARCH_X86", "SCMP_ARCH_X32"
VALUES = (0, 1, 2, 8, 40, 0xFF, 0xFFFFFFFF, 2**32, 2**63, 2**64 - 1)
# Numbers as no one writes them, and values of other types.
NUMBERS = ("1.0", "1e3", "1E0", "-1", "-0", "18446744073709551616", "18446744073709551615", "0.0", "1.5", '"1"', '"0x10"', "01", "0x1", "true",
           "1e400", "100000000000000000000000", "4096", "65536", "65537", "-18446744073709551615", "4294967296")
OTHERS = (None, [], Members(), "", 0, False, "x", 5)


class Raw(str):
    """A text that stands in the JSON as it is."""


def written(value):
    """The text of a value."""
    if isinstance(value, Raw):
        return str(value)
    if isinstance(value, Members):
        return "{" + ",".join(f"{written(key)}:{written(other)}" for key, other in value) + "}"
    if isinstance(value, list):
        return "[" + ",".join(map(written, value)) + "]"
    return json.dumps(value)


def put(value, key, other):
    """Gives a member another value, or adds it."""
    for place, (name, _) in enumerate(value):
        if name == key:
            value[place] = key, other
            return
    value.append((key, other))


def got(value, key):
    """The value of a member, or None."""
    return next((other for name, other in value if name == key), None)


class Text:
    """A text that is drawn: `section` is in the root `top`, or is it."""

    def __init__(self, dice):
        self.dice, self.is_bundle = dice, dice.random() < 0.6
        self.section = self.drawn_section()
        self.top = Members([("ociVersion", dice.choice(("1.0.2", "1.2.0"))), ("linux", Members([("seccomp", self.section)]))]) \
            if self.is_bundle else self.section
        self.change = lambda text: text
        for _ in range(dice.choice((0, 1, 1, 1, 2))):
            dice.choice(TWISTS)(self, dice)

    def bytes(self):
        """The text."""
        return self.change(written(self.top).encode(errors="surrogateescape"))

    def drawn_condition(self, index):
        dice = self.dice
        operator, value = dice.choice(OPERATORS), dice.choice((*VALUES, dice.getrandbits(64)))
        made = Members([("index", index), ("value", value), ("op", operator)])
        if operator == "SCMP_CMP_MASKED_EQ" or dice.random() < 0.2:
            made.insert(2, ("valueTwo", dice.choice((0, value, value & dice.getrandbits(64)))))
        return made

    def drawn_entry(self, names, default):
        dice = self.dice
        action = dice.choice(ACTIONS) if dice.random() < 0.5 else "SCMP_ACT_ERRNO" if default == "SCMP_ACT_ALLOW" else "SCMP_ACT_ALLOW"
        made = Members([("names", names), ("action", action)])
        if dice.random() < 0.5:
            made.append(("args", [self.drawn_condition(index) for index in dice.sample(range(6), dice.randrange(1, 3))]))
        if action in ("SCMP_ACT_ERRNO", "SCMP_ACT_TRACE") and dice.random() < 0.5:
            made.append(("errnoRet", dice.choice((0, 1, 22, 38, 4095))))
        return made

    def drawn_section(self):
        dice = self.dice
        default = dice.choice(("SCMP_ACT_ERRNO",) * 4 + ("SCMP_ACT_ALLOW", "SCMP_ACT_KILL", "SCMP_ACT_KILL_PROCESS", "SCMP_ACT_LOG"))
        made = Members([("defaultAction", default)])
        if default == "SCMP_ACT_ERRNO" and dice.random() < 0.3:
            made.append(("defaultErrnoRet", dice.choice((1, 22, 38))))
        if dice.random() < 0.6:
            made.append(("architectures", dice.choice(([X86_64], [X86_64, X86], [X86_64, X86, X32], []))))
        names, entries = dice.sample(CALLS, dice.randrange(2, 8)), []
        while names:
            many = dice.randrange(1, 4)
            entries.append(self.drawn_entry(names[:many], default))
            names = names[many:]
        made.append(("syscalls", entries))
        return made

    def entry(self):
        """One of the entries, or a new one."""
        found = [entry for entry in got(self.section, "syscalls") or () if isinstance(entry, Members)]
        return self.dice.choice(found) if found else Members()

    def argument(self):
        """One of the conditions, or a new one of an entry."""
        entry = self.entry()
        found = [one for one in got(entry, "args") or () if isinstance(one, Members)]
        if not found:
            found = [self.drawn_condition(self.dice.randrange(6))]
            put(entry, "args", found)
        return self.dice.choice(found)

    def known(self):
        """An object on the path that is read, and a key that readers know in it."""
        dice = self.dice
        places = [(self.section, ("defaultAction", "defaultErrnoRet", "architectures", "syscalls", "archMap", "defaultErrno")),
                  (self.entry(), ("names", "action", "errnoRet", "args", "includes", "errno", "name")),
                  (self.argument(), ("index", "value", "valueTwo", "op"))]
        if self.is_bundle:
            linux = got(self.top, "linux")
            places += [(self.top, ("ociVersion", "linux"))] + ([(linux, ("seccomp",))] if isinstance(linux, Members) else [])
        value, keys = dice.choice(places)
        return value, dice.choice(keys)

    def another(self, key):
        """Another value for a key."""
        dice = self.dice
        made = {"linux": lambda: Members([("seccomp", self.drawn_section())]), "seccomp": self.drawn_section, "ociVersion": lambda: "1.0.2",
                "defaultAction": lambda: dice.choice(ACTIONS), "action": lambda: dice.choice(ACTIONS), "names": lambda: ["ptrace"],
                "syscalls": lambda: [Members([("names", ["ptrace"]), ("action", dice.choice(ACTIONS))])], "op": lambda: dice.choice(OPERATORS),
                "args": lambda: [self.drawn_condition(0)], "architectures": lambda: [X86_64, X86], "index": lambda: dice.randrange(6),
                "includes": lambda: Members([("caps", ["CAP_SYS_ADMIN"])]), "archMap": lambda: [], "errno": lambda: "ENOSYS",
                "defaultErrno": lambda: "ENOSYS", "name": lambda: "ptrace"}
        return made.get(key, lambda: dice.choice((0, 3, 5, 38)))()


def varied(dice, key):
    """A key that some reader may take for this one."""
    way, places = dice.randrange(4), [place for place, c in enumerate(key) if c in "skSK"]
    if way == 0:
        return key
    if way == 1 or way == 2 and not places:
        return dice.choice((key.upper(), key[0].upper() + key[1:], key.swapcase()))
    if way == 2:
        place = dice.choice(places)
        return key[:place] + ("\u017f" if key[place] in "sS" else "\u212a") + key[place + 1 :]
    return key + "\0" + dice.choice(("", "x"))


def second_key(text, dice):
    """A key beside a known one, or in its place."""
    value, key = text.known()
    if dice.random() < 0.2 and got(value, key) is not None:
        place = [name for name, _ in value].index(key)
        value[place] = varied(dice, key), value[place][1]
        return
    other = text.another(key) if dice.random() < 0.6 else dice.choice(OTHERS)
    value.insert(dice.choice((0, len(value))), (varied(dice, key), other))


def unknown_key(text, dice):
    """A key that no reader knows."""
    value, _ = text.known()
    value.append((dice.choice(("arg", "foo", "comment", "$schema", "baseProfileName", "Names ", "x\udc00")), dice.choice(OTHERS)))


def other_value(text, dice):
    """A value of another type, or an empty one, and elements that are null."""
    value, key = text.known()
    listed = got(value, key)
    if isinstance(listed, list) and not isinstance(listed, Members) and dice.random() < 0.3:
        listed.insert(dice.randrange(len(listed) + 1), dice.choice((None, 1, "x", [])))
    else:
        put(value, key, dice.choice(OTHERS))


def odd_number(text, dice):
    """A number as no one writes it."""
    value, key = dice.choice(((text.section, "defaultErrnoRet"), (text.entry(), "errnoRet"), (text.argument(), dice.choice(("index", "value", "valueTwo")))))
    put(value, key, Raw(dice.choice(NUMBERS)))


def odd_name(text, dice):
    """Names that no call has, or that are written otherwise."""
    put(text.entry(), "names", dice.choice((
        [], [""], ["ptrace", ""], ["ptrace", "ptrace"], ["frob"], ["SYS_read"], ["getpid", "file_getattr"], ["ptrace "], ["x32_read", "5"], "ptrace",
        ["PTRACE"], ["ptrace\0x"], ["getpid", "ptrace\0"], [Raw('"\\u0070trace"')], [Raw('"pt\udcffrace"')])))


def odd_machine(text, dice):
    """Machines that some readers do not know, or that are written otherwise."""
    put(text.section, "architectures", dice.choice((
        [X86_64, "SCMP_ARCH_FOO"], [X86_64, X86_64, X86, X86], [X86], [X86_64, "SCMP_ARCH_MIPS"], ["x86_64"], ["scmp_arch_x86_64"], ["SCMP_ARCH_NATIVE"],
        [X86_64, "SCMP_ARCH_AARCH64", "SCMP_ARCH_ARM"], [X86_64, "SCMP_ARCH_LOONGARCH64"], [X86_64 + "\0"])))


def odd_action(text, dice):
    """Actions and errors that some readers do not know, or not together."""
    key, value = dice.choice((("defaultAction", text.section), ("action", text.entry())))
    put(value, key, dice.choice(("SCMP_ACT_FOO", "scmp_act_allow", "SCMP_ACT_KILL_THREAD", "SCMP_ACT_NOTIFY", "SCMP_ACT_ALLOW\0", Raw('"SCMP\\u005fACT_ALLOW"'))))
    if dice.random() < 0.3:
        put(value, "defaultErrnoRet" if value is text.section else "errnoRet", dice.choice((5, 4096, 65537, 2**31)))


def odd_condition(text, dice):
    """Conditions that libseccomp or the kernel would not take."""
    key, value = dice.choice((("index", 6), ("index", 2**32), ("op", "SCMP_CMP_FOO"), ("op", "scmp_cmp_eq"), ("op", "SCMP_CMP_EQ\0")))
    argument = text.argument()
    way = dice.randrange(3)
    if way == 0:
        put(argument, key, value)
    elif way == 1:
        argument.pop(dice.randrange(len(argument)))
    else:
        put(text.entry(), "args", [text.drawn_condition(index) for index in dice.choice(((1, 1), (0, 1, 2, 3, 4, 5, 0), (2, 3, 4)))])


def both_kinds(text, dice):
    """Members of the other kind at the top."""
    if text.is_bundle:
        text.top.extend(dice.choice((text.drawn_section(), Members([("defaultAction", "SCMP_ACT_ALLOW")]), Members([("syscalls", [])]))))
    else:
        other = dice.choice((Members([("seccomp", text.drawn_section())]), Members(), None))
        text.top.insert(dice.choice((0, len(text.top))), (dice.choice(("linux", "linux", "Linux", "linux\0")), other))


def passed_over(text, dice):
    """Members that a reader may not know."""
    put(text.section, *dice.choice((("flags", ["SECCOMP_FILTER_FLAG_LOG"]), ("flags", []), ("listenerPath", ""), ("listenerMetadata", ""))))


def around(text, dice):
    """Something in front of the text, behind it, or within."""
    deep = dice.choice((100, 126, 127, 128, 1000, 10001))
    text.change = dice.choice((
        lambda given: b"\xef\xbb\xbf" + given, lambda given: given + dice.choice((b"x", b"}", b",", b"\0", b" 1", b"\n{}")),
        lambda given: b"// x\n" + given, lambda given: given[:1] + b"/* x */" + given[1:], lambda given: given[:-1] + b",}",
        lambda given: given[: dice.randrange(1, len(given))], lambda given: b" \t\r\n" + given + b"\n\n", lambda given: given + b"\x0b",
        lambda given: dice.choice((b"", b" ", b"null", b"[]", b"{}", b"1")), lambda given: given.decode().encode("utf-16"),
        lambda given: given[:-1] + dice.choice((b',"h":NaN}', b',"h":+1}', b",'h':1}", b',h:1}', b',"h":1e999}', b',"h":"\xff"}')),
        lambda given: given[:-1] + b',"d":' + b"[" * deep + b"]" * deep + b"}"))


TWISTS = (second_key, second_key, second_key, second_key, unknown_key, other_value, odd_number, odd_name, odd_machine, odd_action, odd_condition,
          both_kinds, passed_over, around)


def text_at(seed, place):
    """The text at a place of those that a seed begins."""
    return Text(random.Random(f"{seed} {place}")).bytes()
