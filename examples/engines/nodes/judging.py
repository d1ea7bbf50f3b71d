"""Whether filters do what a config says, by the commands of ccell. Equal pairs are judged once."""
import hashlib
import re
from collections import namedtuple

from nodes.filters import run
from nodes.kernel import has_call, has_x32
from nodes.processes import plain

MACHINE = "linux-x86-64"
RIGHT = ("same", "same-but-x32", "same-but-calls", "unconfined", "stopped")
Verdict = namedtuple("Verdict", "name text record aside", defaults=("", ()))
X32 = "1073741824 to 2147483647 of linux-x32"
ASIDE = re.compile(r"(\d+) to \1 of (linux-x86-64|linux-x32|linux-x86)")
RECORD = re.compile(r"no record ([0-9a-f]+) filter (0x[0-9a-f]+) profile (0x[0-9a-f]+)")


def answer(number):
    """The name of a verdict that is told as 0x7fff0000."""
    value = int(number, 16)
    data = value & 0xFFFF
    return {0x7FFF: "ALLOW", 0x7FFC: "LOG", 0x7FF0: f"TRACE {data}", 0x7FC0: "USER_NOTIF", 5: f"ERRNO {data}", 3: "TRAP", 0x8000: "KILL_PROCESS",
            0: "KILL_THREAD"}.get(value >> 16, number)


def called_by(record):
    """The machine and the number of a record's call."""
    number, token = (int.from_bytes(bytes.fromhex(record[place:place + 8]), "little") for place in (0, 8))
    return "linux-x86" if token == 0x40000003 else "linux-x32" if number & 0x40000000 else "linux-x86-64", number


def listed(calls):
    return " ".join(f"{number} of {machine}" for machine, number in calls)


def one_line(text):
    return plain(" ".join(text.split()))


class Judge:
    """Judges filters by configs, and tells remarks of ccell as they come, below the ID of the container that they are on."""

    def __init__(self, ccell, filters, words, remark):
        self.ccell, self.filters, self.words, self.heard, self.about, self.below = ccell, filters, words, remark, "", None
        self.room, self.bundles, self.pairs, self.olders = filters.room, {}, {}, {}
        self.left_aside = ["runc", "calls"] + ([] if has_x32() else ["without-x32"])

    def remark(self, text):
        if text:
            self.heard(f"{self.about}:\n{text}" if self.below != self.about else text)
            self.below = self.about

    def adapted(self, config):
        """The file of a config's profile, or why there is none. Entries that contradict each other are read as libseccomp settles that."""
        key = hashlib.sha256(config).hexdigest()
        if key not in self.bundles:
            self.bundles[key] = self.made(config)
        return self.bundles[key]

    def made(self, config):
        (self.room / "config.json").write_bytes(config)
        settled = ""
        command = [self.ccell, "adapt", MACHINE, self.room / "config.json", *self.words]
        status, bundle, said = run(command)
        if bundle.startswith(b"refused profile 17 Overlap"):
            status, bundle, said = run([*command, "like-libseccomp"])
            settled = ", as libseccomp settles its contradictions"
        if status == 4 and bundle.startswith(b"refused profile 3 "):
            return None, Verdict("unconfined", "has no filter of its engine, as its config says")
        if status not in (0, 5):
            return None, Verdict("not-read", f"is not read: {one_line(bundle.decode(errors='surrogateescape') + said)}")
        self.remark(said)
        path = self.room / f"{hashlib.sha256(bundle).hexdigest()}.json"
        path.write_bytes(bundle)
        return path, settled

    def pair(self, bundle, settled, digest):
        """The verdict on a filter."""
        key = bundle.name, digest
        if key not in self.pairs:
            status, told, said = run([self.ccell, "certify", MACHINE, bundle, self.filters.path(digest), *self.left_aside])
            self.remark(said)
            verdict = verdict_of(status, told.decode(errors="surrogateescape"), said)
            self.pairs[key] = self.of_kernel(bundle, digest, verdict) if verdict.aside else verdict
        verdict = self.pairs[key]
        return verdict._replace(text=verdict.text + settled) if verdict.name in RIGHT else verdict

    def of_kernel(self, bundle, digest, verdict):
        """The verdict on a filter that is wrong only on numbers that ccell knows no call of: it is right unless this kernel has one of them."""
        here = [called for called in verdict.aside if has_call(*called)]
        if not here:
            return verdict
        words = [word for word in self.left_aside if word != "calls"]
        told = run([self.ccell, "certify", MACHINE, bundle, self.filters.path(digest), *words, "all"])[1].decode(errors="surrogateescape")
        record, filters, profiles = next((found.groups() for found in RECORD.finditer(told) if called_by(found[1]) in here), ("", "", ""))
        answers = f": filter {answer(filters)}, profile {answer(profiles)}" if record else ""
        return Verdict("differs", f"differs on numbers that this kernel has calls of, and ccell knows none: {listed(here)}{answers}", record)

    def stack(self, bundle, settled, digests):
        """The verdict on a thread's filters, and the place of the one that it is on. The kernel takes the strictest answer of all: one that
        is right is enough. Without one it is on the newest, which is the engine's if the program has loaded none."""
        if not digests:
            return Verdict("no-filter", "has no filter, and its config has one"), 0
        for place in reversed(range(len(digests))):
            verdict = self.pair(bundle, settled, digests[place])
            if verdict.name in RIGHT:
                return verdict, place
        return self.pair(bundle, settled, digests[-1]), len(digests) - 1

    def older(self, digests, place):
        """How many calls older filters keep from the one at a place; None if that is not known."""
        counts = [self.kept(digest, digests[place]) for digest in digests[:place]]
        return None if None in counts else sum(counts)

    def kept(self, older, digest):
        if (older, digest) not in self.olders:
            status, told, said = run([self.ccell, "compare", MACHINE, self.filters.path(older), self.filters.path(digest), "filters"])
            lines = re.findall(r"^.*: (?:ERRNO|KILL|TRAP|TRACE)[^,\n]*, (?:ALLOW|LOG)$", told.decode(errors="surrogateescape"), re.MULTILINE)
            self.remark("".join(f"older filter, and the container's: {line}\n" for line in lines) if status in (0, 1) else f"not compared: {said}")
            self.olders[older, digest] = len(lines) if status in (0, 1) else None
        return self.olders[older, digest]


def verdict_of(status, told, said):
    """What `certify` says of a filter. A yes has status 0, and is a certificate or a list of what is left aside."""
    if status == 0 and told.startswith("CCRT"):
        return Verdict("same", "does what its config says")
    if status == 0 and told.startswith("yes, but for these calls:\n"):
        lines = [line.strip() for line in told.splitlines()[1:] if line.strip() != X32]
        aside = tuple((found[2], int(found[1])) for found in map(ASIDE.fullmatch, lines) if found)
        if len(aside) != len(lines):
            return Verdict("not-judged", f"was not judged: {one_line(told)}")
        if aside:
            text = f"does what its config says, but for numbers that ccell and this kernel know no call of: {listed(aside)}"
            return Verdict("same-but-calls", text, aside=aside)
        return Verdict("same-but-x32", "does what its config says, but for calls of x32, which this kernel does not have")
    found = RECORD.match(told)
    if status != 1 or not found:
        return Verdict("not-judged", f"was not judged: {one_line(told + said) or f'status {status}'}")
    call = re.search(r"^call .*", said, re.MULTILINE)
    values = re.search(r"^arguments .*", said, re.MULTILINE)
    what = f"{call[0] if call else 'a record that is no call'}, {values[0] if values else ''}"
    return Verdict("differs", plain(f"differs on {what}: filter {answer(found[2])}, profile {answer(found[3])}"), found[1])
