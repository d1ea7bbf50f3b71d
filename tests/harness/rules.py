"""Rules of bundles, as tests/timed.c reads them, and bundles that are lists of numbers."""
import random

ACTIONS = {
    "KILL": 0, "KILL_THREAD": 0, "KILL_PROCESS": 0x80000000, "TRAP": 0x30000, "ERRNO": 0x50000, "TRACE": 0x7FF00000,
    "LOG": 0x7FFC0000, "ALLOW": 0x7FFF0000,
}  # fmt: skip
OPERATORS = ["", "NE", "LT", "LE", "EQ", "GE", "GT", "MASKED_EQ"]
TOKENS = {"X86_64": 0xC000003E, "X86": 0x40000003, "X32": 0x4000003E}


def action(name, error):
    short = name.removeprefix("SCMP_ACT_")
    return ACTIONS[short] | ((1 if error is None else error) if short in ("ERRNO", "TRACE") else 0)


def rules_of(bundle, machines):
    """What a bundle asks for, as tests/timed.c reads it, for the machines that it lists or for the machine itself."""
    section = bundle["linux"]["seccomp"]
    lines = [f"default {action(section['defaultAction'], section.get('defaultErrnoRet'))}"]
    lines += [f"machine {TOKENS[it.removeprefix('SCMP_ARCH_')]}" for it in section.get("architectures", []) if machines]
    for entry in section["syscalls"]:
        args = entry.get("args") or []
        numbers = [[it["index"], OPERATORS.index(it["op"].removeprefix("SCMP_CMP_")), it["value"], it.get("valueTwo", 0)] for it in args]
        words = [str(word) for condition in numbers for word in condition]
        for name in entry["names"]:
            lines.append(" ".join(["rule", str(action(entry["action"], entry.get("errnoRet"))), name, str(len(args)), *words]))
    return "\n".join(lines) + "\n"


def equalities(count):
    """A bundle that allows one call, if an argument is one of so many numbers."""
    numbers = random.Random(3).sample(range(2**20), count)
    args = [[{"index": 1, "value": it, "op": "SCMP_CMP_EQ"}] for it in numbers]
    entries = [{"names": ["ioctl"], "action": "SCMP_ACT_ALLOW", "args": it} for it in args]
    seccomp = {"defaultAction": "SCMP_ACT_ERRNO", "architectures": ["SCMP_ARCH_X86_64"], "syscalls": entries}
    return {"ociVersion": "1.0.2", "linux": {"seccomp": seccomp}}
