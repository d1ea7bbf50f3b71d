"""Inputs that are drawn to be hard on the commands, each of one kind and of a size between little and much.

`drawn` makes the files of one in a folder. It returns the kind, the words of the command line, and what comes on standard input.
"""
import json
import random
import struct

from harness.calls import names_of
from harness.made_up import CALLS, argument, asked_both_ways, some_returns, with_far_numbers

MACHINE = "linux-x86-64"
LD, AND, RET, JA, JEQ, JGT, JGE, JSET = 0x20, 0x54, 0x06, 0x05, 0x15, 0x25, 0x35, 0x45
VERDICTS = [0x7FFF0000, 0x50001, 0x30000, 0, 0x7FFC0000, 0x80000000]
# Calls of other machines are ended, and calls of x32. Behind this A is the number.
BEGINNING = [
    (LD, 0, 0, 4), (JEQ, 1, 0, 0xC000003E), (RET, 0, 0, 0),
    (LD, 0, 0, 0), (JEQ, 2, 0, 0xFFFFFFFF), (JGE, 0, 1, 0x40000000), (RET, 0, 0, 0),
]  # fmt: skip
ACTIONS = ["ALLOW", "ERRNO", "KILL_THREAD", "LOG", "TRAP"]
ORDERS = ["LT", "LE", "GT", "GE", "NE", "EQ"]


def much(dice, least, most):
    """A number between these: one that is twice as large comes half as often."""
    return int(least * (most / least) ** dice.random())


def value(dice):
    """A number of 64 bits, often one at which halves or bits end."""
    near = [0, 1, 8, 0x11, 0xFF, 1 << 28, 1 << 31, (1 << 32) - 1, 1 << 32, (1 << 32) + 1, 0xFFFFFFFF00000001, 1 << 63, (1 << 64) - 1]
    return dice.choice(near) if dice.random() < 0.6 else dice.getrandbits(dice.choice([8, 16, 32, 64]))


def condition(dice, index):
    if dice.random() < 0.4:
        mask = value(dice)
        return argument(index, "MASKED_EQ", mask, mask & value(dice))
    return argument(index, dice.choice(ORDERS), value(dice))


def section(dice, entries, machines=("X86_64",)):
    """A section whose entries, names and conditions, have one action, and its default another."""
    default, action = dice.sample(ACTIONS, 2)
    entries = [{"names": names, "action": f"SCMP_ACT_{action}", "args": args} for names, args in entries]
    return {"defaultAction": f"SCMP_ACT_{default}", "architectures": [f"SCMP_ARCH_{it}" for it in machines], "syscalls": entries}


def masks(dice):
    """An entry for each of some bits of one argument."""
    call, bits = dice.choice(["clone", "mmap", "mount"]), dice.sample(range(64), much(dice, 4, 40))
    wanted = dice.choice([0, (1 << 64) - 1])
    return section(dice, [([call], [argument(2, "MASKED_EQ", 1 << bit, wanted & 1 << bit)]) for bit in bits])


def masks_and_numbers(dice):
    """A few entries for one call, with a mask, an order or a number on one or two arguments."""
    args = [[condition(dice, index) for index in dice.sample(range(3), dice.randint(1, 2))] for _ in range(dice.randint(1, 4))]
    return section(dice, [(["ioctl"], own) for own in args])


def numbers(dice):
    """Many numbers of one argument."""
    return section(dice, [(["socket"], [argument(0, "EQ", number)]) for number in dice.sample(range(1 << 20), much(dice, 50, 1000))])


def ranges(dice):
    """Two comparisons by order in each entry."""
    args = [[argument(index, dice.choice(ORDERS), dice.getrandbits(24)) for index in (0, 1)] for _ in range(much(dice, 4, 100))]
    return section(dice, [(["prctl"], own) for own in args])


def six(dice):
    """Six conditions in each entry."""
    args = [[condition(dice, index) for index in range(6)] for _ in range(much(dice, 4, 200))]
    return section(dice, [(dice.sample(CALLS, dice.choice([1, 3])), own) for own in args])


def names(dice):
    """All calls of some machines in each entry, with a condition."""
    every = list(names_of(MACHINE).values())
    machines = dice.choice([("X86_64",), ("X86_64", "X32", "X86")])
    return section(dice, [(every, [condition(dice, dice.randrange(6))]) for _ in range(much(dice, 2, 20))], machines)


def crowd(dice):
    """Masks of a few bits for many calls, so many that each call has too many answers, or just not."""
    every = list(names_of(MACHINE).values())
    calls, bits, own = much(dice, 1, len(every)), dice.choice([8, 12, 17, 40]), dice.choice([1, 2, 3])
    sets = [sum(1 << bit for bit in dice.sample(range(bits), own)) for _ in range(min(1000, 8000 // calls))]
    return section(dice, [(every[:calls], [argument(0, "MASKED_EQ", mask, mask & dice.getrandbits(bits))]) for mask in sets])


SECTIONS = [masks, masks_and_numbers, numbers, ranges, six, names, crowd]


def text(dice):
    """A text that is nested, or has many members, long strings or long numbers."""
    size = much(dice, 1000, 1_000_000)
    depth = dice.choice([10, 100, 120, 1000])
    odd = [
        "[" * depth + "]" * depth + ",",
        "".join(f'{{"k{n}":' for n in range(depth)) + "1" + "}" * depth + ",",
        '"' + "\\u00e9" * 50 + '",',
        "1" * 100 + ",",
        " " * 100 + "0,",
        "".join(f'{{"a{n}":1}},' for n in range(20)),
    ]
    many = dice.choice(odd)
    body = (many * (size // len(many) + 1)).rstrip(",")
    members = ",".join(f'"m{n}":{n}' for n in range(size // 12))
    first = dice.choice([f'"annotations":[{body}]', members, f'"linux":{{"x":[{body}]}}', f'"process":{{{members}}}'])
    return "{" + first + ',"linux":{"seccomp":{"defaultAction":"SCMP_ACT_ERRNO","syscalls":[]}}}'


def filter_of(dice):
    """Comparisons at random of some words, under masks and not, that lead on to others near or far."""
    places = dice.choice([[16], [16, 20], [16, 24], [16, 20, 24, 28], range(16, 64, 8), [0], [0, 4], [8, 16], [0, 16]])
    tests = dice.choice([[JEQ], [JSET], [JGT, JGE], [JEQ, JSET], [JEQ, JGT, JGE, JSET]])
    share, far, bits = dice.choice([0, 0.3, 0.9]), dice.choice([0, 1, 3, 20, 200]), dice.choice([4, 8, 16, 32])
    body, wanted = [], much(dice, 20, 3500)
    while len(body) < wanted:
        body.append((LD, 0, 0, dice.choice(places)))
        if dice.random() < share:
            body.append((AND, 0, 0, dice.getrandbits(bits) | 1))
        body.append((dice.choice(tests), dice.randint(0, far), dice.randint(0, far), dice.getrandbits(dice.choice([bits, 32]))))
        if dice.random() < 0.2:
            body.append((RET, 0, 0, dice.choice(VERDICTS)))
    first = BEGINNING if dice.random() < 0.8 else []
    first = first + ([(JEQ, 1, 0, 16), (RET, 0, 0, VERDICTS[0])] if dice.random() < 0.5 else [])
    insns = first + body + [(RET, 0, 0, dice.choice(VERDICTS)) for _ in range(201)]
    insns = insns[: 4096 - 201] + insns[-201:] if len(insns) > 4096 else insns
    return b"".join(struct.pack("<HBBI", *insn) for insn in insns)


def jumps(dice):
    """Jumps to what is behind them, and a return."""
    return struct.pack("<HBBI", JA, 0, 0, 0) * much(dice, 100, 4095) + struct.pack("<HBBI", RET, 0, 0, 0)


def log(dice):
    """A log of strace with many calls, calls that are not finished, long lines, or lines that are none."""
    every, lines = list(names_of(MACHINE).values()), []
    kind = dice.choice(["calls", "unfinished", "long", "none"])
    for n in range(much(dice, 100, 20_000)):
        call = dice.choice(every)
        if kind == "unfinished":
            lines.append(f"{n % 500} [{n % 400:4}] {call}(0x{n:x} <unfinished ...>")
        elif kind == "long":
            lines.append(f"{n % 500} [{n % 400:4}] {call}(" + ", ".join(["0x10"] * 200) + ") = 0x0")
        elif kind == "none":
            lines.append("(" * dice.randint(0, 300))
        else:
            lines.append(f"10 [{n % 400:4}] {call}(0x{n:x}, 0x{n % 7:x}, 0x10) = 0x10")
    return "\n".join(lines) + "\n"


def put(room, name, content):
    """The path of a file that holds bytes or a text."""
    path = f"{room}/{name}"
    with open(path, "wb") as file:
        file.write(content if isinstance(content, bytes) else content.encode())
    return path


def of_bundle(dice, room):
    """A command that reads one bundle."""
    make = dice.choice([*SECTIONS, text])
    made = make(dice)
    path = put(room, "a.json", made if make is text else json.dumps(made))
    command = dice.choice(["read", "lint", "review", "export", "explain", "adapt", "json read", "json lint", "json review", "learn", "run"])
    words = {
        "read": ["read", MACHINE, path, *dice.choice([[], ["rules"]])],
        "review": ["review", MACHINE, path, *dice.choice([[], ["html"]])],
        "export": ["export", MACHINE, path, dice.choice(["raw", "cert", "listing"])],
        "explain": ["explain", MACHINE, path, "ioctl", dice.choice(["any", "record"])],
        "adapt": ["adapt", MACHINE, path, *dice.choice([[], ["narrow"], ["first"], ["widen"], ["stricter"], ["narrow", "like-libseccomp"]])],
        "learn": ["learn", MACHINE, "from", path, put(room, "log", log(dice))],
    }.get(command, [*command.split()[:-1], command.split()[-1], MACHINE, path])
    return f"{command} {make.__name__}", words, b"create c b1\nstart c\n" * 100 if command == "run" else b""


def of_bundles(dice, room):
    """A command that reads several bundles."""
    make = dice.choice(SECTIONS)
    other = make if dice.random() < 0.5 else dice.choice(SECTIONS)
    paths = [put(room, f"{n}.json", json.dumps(it(dice))) for n, it in enumerate([make, other])]
    command = dice.choice(["compare", "json compare", "join", "meet"])
    words = ["atmost"] if "compare" in command and dice.random() < 0.5 else []
    return f"{command} {make.__name__}+{other.__name__}", [*command.split(), MACHINE, *paths, *words], b""


def of_filter(dice, room):
    """A command that reads filters, and perhaps a bundle."""
    make = dice.choice([filter_of, filter_of, jumps])
    path = put(room, "filter.bpf", make(dice))
    command = dice.choice(["recover", "recover", "certify", "json certify", "compare", "stack", "flatten", "annotate", "draw", "verdict"])
    bundle = dice.choice(SECTIONS)
    left = dice.choice([[], [], ["calls"], ["without-x32"], ["runc"]])
    words = {
        "recover": ["recover", MACHINE, path, *dice.choice([left, ["others"], ["bundle"]])],
        "certify": ["certify", MACHINE, put(room, "a.json", json.dumps(bundle(dice))), path, *left],
        "json certify": ["json", "certify", MACHINE, put(room, "a.json", json.dumps(bundle(dice))), path],
        "compare": ["compare", MACHINE, path, put(room, "other.bpf", filter_of(dice)), "filters"],
        "stack": ["stack", MACHINE, path, put(room, "other.bpf", filter_of(dice))],
        "flatten": ["flatten", MACHINE, path, put(room, "other.bpf", filter_of(dice))],
        "annotate": ["annotate", MACHINE, path, *dice.choice([[], ["cost"]])],
        "verdict": ["verdict", path, put(room, "call.rec", bytes(64))],
    }.get(command, [command, MACHINE, path])
    return f"{command} {bundle.__name__ if 'certify' in command else make.__name__}", words, b""


def of_certificate(dice, room):
    """A certificate that is made up of nodes that contradict themselves, on both sides of the limit of work, for `check`."""
    make = dice.choice([asked_both_ways, with_far_numbers])
    some_returns(room, *make(), much(dice, 10, 16000))
    return f"check {make.__name__}", ["check", MACHINE, f"{room}/bundle.json", f"{room}/filter.bpf", f"{room}/made-up.cert"], b""


def of_log(dice, room):
    """A command that reads logs, or a long text."""
    command = dice.choice(["learn", "replay", "json replay", "explain audit", "assemble", "record"])
    if command == "explain audit":
        bundle = put(room, "a.json", json.dumps(dice.choice(SECTIONS)(dice)))
        line = "audit: sig=0 arch=c000003e syscall={} compat=0 ip=0x{:x} code=0x50000\n"
        made = "".join(line.format(n % 500, n) for n in range(much(dice, 100, 20_000)))
        return command, ["explain", MACHINE, bundle, "audit"], made.encode()
    if command == "assemble":
        line = dice.choice(["jeq #0x1, 0, 0\n", "ret #0x0\n", "x" * 1000 + "\n", "\n"])
        return command, ["assemble", put(room, "listing", line * much(dice, 10, 50_000))], b""
    if command == "record":
        return command, ["record", MACHINE, "clone", "|".join(["CLONE_NEWUSER"] * much(dice, 1, 5000))], b""
    path = put(room, "log", log(dice))
    bundle = put(room, "a.json", json.dumps(dice.choice(SECTIONS)(dice)))
    words = {"learn": dice.choice([[], ["keep", "ioctl:1"], ["for", "crun"]]), "replay": dice.choice([[], ["unused"]])}.get(command, [])
    return command, [*command.split(), MACHINE, *([bundle] if "replay" in command else []), path, *words], b""


# How often each is drawn.
SHARES = {of_bundle: 6, of_bundles: 4, of_filter: 6, of_certificate: 1, of_log: 3}


def drawn(seed, room):
    """The input of a seed."""
    dice = random.Random(seed)
    return dice.choices(list(SHARES), list(SHARES.values()))[0](dice, room)
