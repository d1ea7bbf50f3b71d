"""Certificates that are made up to be hard on `ccell check`, and the bundles beside them: `tests/slow` asks about these."""
import json
import random
import struct

RET, KILL_THREAD = 0x06, 0
# The calls of numbers 0 to 31.
CALLS = """read write open close stat fstat lstat poll lseek mmap mprotect munmap brk rt_sigaction rt_sigprocmask rt_sigreturn
ioctl pread64 pwrite64 readv writev access pipe select sched_yield mremap msync mincore madvise shmget shmat shmctl""".split()


def argument(index, operator, value, datum=0):
    return {"index": index, "op": f"SCMP_CMP_{operator}", "value": value, "valueTwo": datum}


def bundle(entries):
    """A bundle that allows calls, by names and conditions."""
    entries = [{"names": names, "action": "SCMP_ACT_ALLOW", "args": args} for names, args in entries]
    return {"ociVersion": "1.0.2", "linux": {"seccomp": {"defaultAction": "SCMP_ACT_ERRNO", "syscalls": entries}}}


def written(room, name, made):
    """The path of a file that holds a bundle."""
    path = f"{room}/{name}.json"
    with open(path, "w", encoding="utf8") as file:
        json.dump(made, file)
    return path


def of_two_machines():
    """256 entries of KILL for sixteen calls of two machines, each with six conditions: 8,192 rules."""
    dice, names = random.Random(7), [name for name in CALLS if name != "pipe"][:16]
    args = [[argument(index, "EQ", dice.getrandbits(64)) for index in range(6)] for _ in range(256)]
    entries = [{"names": names, "action": "SCMP_ACT_KILL", "args": own} for own in args]
    return {"defaultAction": "SCMP_ACT_KILL", "architectures": ["SCMP_ARCH_X86_64", "SCMP_ARCH_X86"], "syscalls": entries}


def of_five_machines(action):
    """1,024 entries for the call of number 435 on five machines, each with six conditions: the last one is met by no number below 1,000."""
    dice, machines = random.Random(7), ["X86_64", "X86", "X32", "ARM", "AARCH64"]
    args = [[argument(index, "EQ", dice.getrandbits(20) + 1000 * (index == 5)) for index in range(6)] for _ in range(1024)]
    entries = [{"names": ["clone3"], "action": action, "args": own} for own in args]
    return {"defaultAction": "SCMP_ACT_KILL", "architectures": [f"SCMP_ARCH_{machine}" for machine in machines], "syscalls": entries}


def refuted_by_turns():
    """1,024 such entries. In turn no number below 1,000 meets its fifth or its sixth condition, and one of them meets the other."""
    dice, made = random.Random(7), of_five_machines("SCMP_ACT_ERRNO")
    for n, entry in enumerate(made["syscalls"]):
        for condition in entry["args"][4:]:
            condition["value"] = dice.randrange(1000) + 1000 * (condition["index"] == 4 + n % 2)
    return made


def made_up(room, literals, nodes, seccomp):
    """Files of a made-up certificate of nodes and of these literals, each with the number of the one before it. Beside it stand a bundle
    and a filter that returns KILL_THREAD."""
    written(room, "bundle", {"ociVersion": "1.0.2", "linux": {"seccomp": seccomp}})
    with open(f"{room}/filter.bpf", "wb") as file:
        file.write(struct.pack("<HBBI", RET, 0, 0, KILL_THREAD))
    place, places = 16 + 14 * len(literals) + 4 * len(nodes), []
    for node in nodes:
        places.append(struct.pack("<I", place))
        place += len(node)
    with open(f"{room}/made-up.cert", "wb") as file:
        head = b"CCRT" + struct.pack("<III", 2, len(nodes), len(literals))
        file.write(head + b"".join([struct.pack("<IBBII", *literal) for literal in literals] + places + nodes))


def node(kind, chain, more=b""):
    """A node of kind 1, a split, or 2, a return, at the first instruction. It knows a chain of literals, by the last one's number."""
    return struct.pack("<BBHBBIBBII", kind, 0, 0, 1, 0, 0, 1, 0, 0, chain) + more


def returns_beside_rules(room, has_heads):
    """16,384 returns that share a chain of 512 literals, or all of it but for an entry each."""
    dice, count = random.Random(7), 16384
    shared = 511 if has_heads else 512
    heads = [shared + 1 + place if has_heads else shared for place in range(count - 1)]
    parents = [*range(shared), *([shared] * (count - 1) if has_heads else [])]
    literals = [(parent, 3, 4 + n % 12, 0xFFFFFFFF, dice.getrandbits(32)) for n, parent in enumerate(parents)]
    made_up(room, literals, [node(2, chain) for chain in [0, *heads]], of_two_machines())


def edges_of_one_chain(room):
    """16,382 splits that share a chain of 512 masks, of which the last that is looked at gives all literals of the node behind them."""
    dice, count = random.Random(5), 16384
    masks = [(1, 1)] + [(mask, dice.getrandbits(32) & mask) for mask in (dice.getrandbits(32) for _ in range(511))]
    literals = [(place, 3, 4, mask, datum) for place, (mask, datum) in enumerate(masks)]
    literals += [(512 + place if place else 0, 3, 4, 0xFFFFFFFF, 2 * place + 65) for place in range(512)]
    split = node(1, 512, struct.pack("<BBIIBBIIII", 1, 3, 0, 0, 1, 3, 1, 0xFFFFFFFF, count - 1, count - 1))
    made_up(room, literals, [node(2, 0)] + [split] * (count - 2) + [node(2, 1024)], of_two_machines())


def returns_of_five_machines(room, action):
    """16,382 returns beside five machines' rules, by which their last argument is below 1,000. The last node knows nothing."""
    dice, count = random.Random(7), 16384
    literals = [(n, 3, 4 + n % 12, 0xFFFFFFFF, dice.getrandbits(32)) for n in range(510)] + [(510, 1, 14, 0, 999)]
    literals += [(511, 2, 0, 0xFFFFFFFF, 435)] * (count - 2)
    split = node(1, 0, struct.pack("<BBIIBBIIII", 2, 15, 0xFFFFFFFF, 0, 3, 15, 0xFFFFFFFF, 0, count - 1, count - 1))
    made_up(room, literals, [split] + [node(2, 512 + place) for place in range(count - 2)] + [node(2, 0)], of_five_machines(action))


def returns_refuted_by_turns(room):
    """16,382 returns by which nothing is known of the call's number, and the last two arguments are below 1,000."""
    dice, count = random.Random(7), 16384
    known = [(2, 5 + 2 * index, 0xFFFFFFFF, 0) for index in range(6)] + [(1, 12, 0, 999), (1, 14, 0, 999)]
    known += [(3, 4 + 2 * (n % 6), 0xFFFFFFFF, dice.getrandbits(31) | 1 << 31) for n in range(503)]
    literals = [(n, *literal) for n, literal in enumerate(known)] + [(511, 3, 2, 0xFFFFFFFF, n) for n in range(count - 2)]
    split = node(1, 0, struct.pack("<BBIIBBIIII", 2, 15, 0xFFFFFFFF, 0, 3, 15, 0xFFFFFFFF, 0, count - 1, count - 1))
    made_up(room, literals, [split] + [node(2, 512 + n) for n in range(count - 2)] + [node(2, 0)], refuted_by_turns())


def asked_both_ways():
    """What contradicts itself of six arguments, and 1,024 entries for four calls of two machines. Of their conditions all but the last are
    yes and no by it."""
    dice, known, entries, highs = random.Random(11), [], [], []
    data = [(1 << 31 | dice.getrandbits(31)) & ~1 for _ in range(5)]
    for index, datum in enumerate(data):
        highs.append([dice.getrandbits(31) << 1 | 2 for _ in range(86)])
        known += [(1, 4 + 2 * index, 0, 0x7FFFFFFF), (2, 4 + 2 * index, 0xFFFFFFFE, datum), (2, 5 + 2 * index, 0xFFFFFFFE, 0xFFFFFFFE)]
        known += [(2, 5 + 2 * index, mask, 0) for mask in highs[index]]
    for word in (14, 15):
        known += [(2, word, 1, 0), (2, word, 1, 1)] + [(3, word, 0xFFFFFFFF, dice.getrandbits(32)) for _ in range(10)]
    known += [(2, 0, 0xFFFFFFFF, number) for number in (0xFFFFFFFF, 3, 5, 6, 8, 19, 108, 435)]
    for _ in range(1024):
        masks = [dice.choice(highs[index]) << 32 | 1 << 31 | dice.getrandbits(31) & ~1 for index in range(5)]
        args = [argument(index, "MASKED_EQ", mask, data[index] & mask & 0xFFFFFFFF) for index, mask in enumerate(masks)]
        mask = dice.getrandbits(64) & ~(1 << 32 | 1)
        args.append(argument(5, "MASKED_EQ", mask, dice.getrandbits(32) & mask))
        entries.append({"names": ["close", "fstat", "lseek", "clone3"], "action": "SCMP_ACT_ERRNO", "args": args})
    return known, {"defaultAction": "SCMP_ACT_KILL", "architectures": ["SCMP_ARCH_X86_64", "SCMP_ARCH_X86"], "syscalls": entries}


def with_far_numbers():
    """What leaves the call's number open, and 1,024 entries for six calls of ARM, whose numbers are above 983,040."""
    dice, known = random.Random(3), [(2, 0, 1 << 19, 0), (2, 0, 1 << 19, 1 << 19)]
    known += [(3, 0, 0xFFFFFFFF, 0x50000000 + dice.getrandbits(24)) for _ in range(508)]
    names = ["breakpoint", "cacheflush", "usr26", "usr32", "set_tls", "get_tls"]
    entries = [{"names": names, "action": "SCMP_ACT_KILL", "args": [argument(0, "EQ", entry)]} for entry in range(1024)]
    return known, {"defaultAction": "SCMP_ACT_KILL", "architectures": ["SCMP_ARCH_X86_64", "SCMP_ARCH_ARM"], "syscalls": entries}


def some_returns(room, known, seccomp, returns=400):
    """Nodes of which so many are returns that know this and a literal of their own. With 16,384 nodes it takes forty times as long as with
    402."""
    count = returns + 2
    literals = [(n, *literal) for n, literal in enumerate(known)] + [(len(known), 3, 2, 0xFFFFFFFF, n) for n in range(count - 2)]
    split = node(1, 0, struct.pack("<BBIIBBIIII", 2, 15, 0xFFFFFFFF, 0, 3, 15, 0xFFFFFFFF, 0, count - 1, count - 1))
    made_up(room, literals, [split] + [node(2, len(known) + 1 + n) for n in range(count - 2)] + [node(2, 0)], seccomp)
