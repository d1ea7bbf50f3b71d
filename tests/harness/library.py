"""What rows ask of the library: each question as the lines that `ask` is asked, and the row's answer from what it tells."""
import re
import struct
import tempfile
from collections import Counter

from harness import asked
from harness.ask import side_by_side
from harness.asked import effect_told, is_profile, optional, parts_of, record_of
from harness.calls import MACHINES, TOKENS, names_of, of_bytes, program
from harness.figures import figures
from harness.grids import near, of_halves
from harness.rows import Fault
from harness.texts import bytes_of, expanded, grouped, is_digits, number

# More rules of a profile than these are counted, and not told.
MOST_RULES = 9


def profile(line):
    """The parts of the profile that a line has `ask` make, or why there is none. Of many rules only how many there are."""
    (answer,) = yield [line]
    told, count = parts_of(answer), len(answer) - 3
    return [told[0], f"{count} rules"] if is_profile(answer) and count > MOST_RULES else told


def build(text):
    """The parts of a profile that is built."""
    return (yield from profile(asked.build(text)))


def taken(line):
    """Nothing, where the line makes a profile."""
    (answer,) = yield [line]
    if not is_profile(answer):
        raise Fault(f"no profile: {answer[0]}")
    return []


def decide(line, rest):
    """What the profile of a line says of a call."""
    _, answer = yield [line, f"profile decide {record_of(rest)}"]
    return answer


def of_rules(*conditions):
    """What makes a profile of a rule for each of these conditions, with verdicts that no two have in common."""
    return asked.build("; ".join(["x86-64 x86-64 0x7ff00000", *(f"x86-64 135 {0x50001 + i} {it}" for i, it in enumerate(conditions))]))


def condition(text):
    """Whether a condition is one: whether there is a rule under it."""
    (answer,) = yield [of_rules(text)]
    return ["a condition" if is_profile(answer) else "none"]


def overlap(rest):
    """Whether rules under these conditions overlap, asked both ways round."""
    one, _, other = rest.partition("/")
    told = yield [of_rules(one, other), of_rules(other, one)]
    both = ["no" if is_profile(answer) else {"3 Overlap 0 1": "yes"}[answer[0]] for answer in told]
    return both[:1] if both[0] == both[1] else ["it depends on the order"]


def strictest(text):
    """The strictest of verdicts."""
    verdicts = [number(verdict) for verdict in text.split()]
    (answer,) = yield [f"verdict strictest {len(verdicts)} {' '.join(map(str, verdicts))}"]
    return answer


def effect(text):
    """What becomes of a call with a verdict."""
    (answer,) = yield [f"verdict effect {number(text)}"]
    return [effect_told(*answer)]


def least(text):
    """The least number of so many bits, at least another, with such bits under a mask."""
    ((answer,),) = yield [f"verdict least {' '.join(str(number(part)) for part in text.split())}"]
    return [optional(answer, lambda told: f"{int(told):#x}") or "none"]


def record(text):
    """The bytes of the record `POINTER CALL`, and the words that they spell."""
    pointer, _, call = text.partition(" ")
    ((data, *words),) = yield [f"verdict record {record_of(call, pointer)}"]
    return [grouped(bytes.fromhex(data)), " ".join(["words", *(f"{int(word):#x}" for word in words)])]


def assembled(text):
    """The bytes of a listing in digits, or what is told of it."""
    with tempfile.NamedTemporaryFile("w", encoding="utf-8", newline="") as file:
        file.write(expanded(text))
        file.flush()
        data, status = program("assemble", file.name)
    return data.decode().rstrip().removeprefix("refused listing ") if status else data.hex()


def assemble(text):
    """The bytes of a listing, or what is told of it."""
    told = assembled(text)
    return [grouped(bytes.fromhex(told)) if is_digits(told) else told]


def disassembled(text):
    """The listing of a program."""
    told = of_bytes(bytes_of(text), "annotate", "x86-64")
    return [re.match("neg|tax|txa|[^ ]+ [^ ]+", line[6:])[0] for line in told if not line.startswith("refused")]


def compiled(line):
    """The parts of a profile that is taken, and the bytes of its filter in digits, or why it has none."""
    told, (filtered,) = yield [line, "profile compile"]
    if not is_profile(told):
        raise Fault(f"no profile: {told[0]}")
    return parts_of(told), filtered


def size(line):
    """How long the filter of a profile is, or why it has none."""
    _, filtered = yield from compiled(line)
    return [f"{len(filtered) // 16} instructions" if is_digits(filtered) else filtered]


def figures_of(line):
    """How long the filter of a profile and its paths are."""
    told, filtered = yield from compiled(line)
    if not is_digits(filtered):
        return [filtered]
    rules = (rule.split(" ", 2) for rule in told[1:])
    calls = [(int(nr), TOKENS[machine]) for machine, nr, _ in rules]
    return [*figures(filtered, calls)]


def agrees(line, filtered, grids):
    """Whether a filter answers on the records of grids what the profile of a line says: `agrees`, or the first other answer."""
    told = yield [line, f"filter bytes {filtered}", *(it for grid in grids for it in (grid, "profile agrees"))]
    answers = [optional(answer, "differs at {}".format) for (answer,) in told[3::2] if answer != "None"]
    return answers[:1] or ["agrees"]


def conforms(line):
    """Whether the filter of a profile answers what the profile says, or why there is none."""
    told, filtered = yield from compiled(line)
    if not is_digits(filtered):
        return [filtered]
    family = MACHINES["linux-" if told[0].startswith("native linux-") else ""]
    calls_there = (nr for machine in family for nr in names_of(machine))
    return (yield from agrees(line, filtered, near(told, calls_there)))


def certified(line, filtered, maker="certify"):
    """How many nodes the certificate of a filter has, which the checker takes; or why there is none: `wrong` if there is a counterexample."""
    if not is_digits(filtered):
        return [filtered]
    both = [line, f"filter bytes {filtered}"]
    *_, (cert,) = yield [*both, f"profile {maker}"]
    if not is_digits(cert):
        return [cert.removeprefix("refused certify ")]
    *_, (said,) = yield [*both, f"profile check {cert}"]
    count = struct.unpack_from("<I", bytes.fromhex(cert), 8)[0]
    return [f"yes, {count} nodes" if said == "yes" else said]


def is_certified(line, maker="certify"):
    """Whether the filter of a profile gets a certificate that the checker takes, of `certify` or of `follow`."""
    _, filtered = yield from compiled(line)
    (said,) = yield from certified(line, filtered, maker)
    return [said.partition(",")[0] if said.startswith("yes, ") else said]


def is_filter(line, listing):
    """The same of the filter of a listing, and of how many nodes."""
    return (yield from certified(line, assembled(listing)))


def bytes_line(listing):
    """The line that gives `ask` the filter of a listing."""
    told = assembled(listing)
    if not is_digits(told):
        raise Fault(f"no listing: {told}")
    return f"filter bytes {told}"


def accepted(line):
    """What the kernel's check says of the filter of a line: what comes in place of its verdict."""
    _, said = yield [line, f"filter run {asked.record(0, 0)}"]
    return ["accepted"] if len(said) == 3 else said


def run(line, rest):
    """The verdict of the filter of a line on a call, and how many instructions run."""
    _, said = yield [line, f"filter run {record_of(rest)}"]
    return [f"{said[0]} after {said[1]}"] if len(said) == 3 else said


def fixed(line, rest):
    """Whether that filter allows a call by its number and machine alone."""
    _, said = yield [line, f"filter run {record_of(rest)}"]
    return [{"true": "yes", "false": "no"}.get(said[-1], said[-1])]


def nodes(data):
    """How many nodes a certificate has, or its fault."""
    ((said,),) = yield [f"cert {data.hex()}"]
    return [read_told(said)]


def read_told(said):
    """What is told of a certificate that is read, or its fault."""
    return f"read, nodes: {said}" if said.isdigit() else said


def long_chain(text):
    """What is read of a certificate of one node with a chain of so many literals."""
    count = number(text)
    entries = b"".join(struct.pack("<IBBII", parent, 1, 0, 0, 0xFFFFFFFF) for parent in range(count))
    head = struct.pack("<4sIIII", b"CCRT", 2, 1, count, 20 + len(entries))
    # (the table of nodes has its one offset behind the entries)
    data = head[:16] + entries + head[16:] + struct.pack("<BxH12xI", 2, 0, count)
    return (yield from nodes(data))


def flips(data):
    """The bytes with each bit flipped alone, the lowest of a byte first."""
    for place in range(len(data)):
        for bit in range(8):
            yield data[:place] + bytes([data[place] ^ 1 << bit]) + data[place + 1 :]


def without_place(said):
    """An answer up to the node or the position that it names."""
    return re.split(" node | pc ", said, maxsplit=1)[0]


def counted(answers):
    """How often each answer comes."""
    return [f"{count} {said}" for said, count in sorted(Counter(map(without_place, answers)).items())]


def nodes_flipped(data):
    """How often a certificate with one bit flipped is read, and which faults it has."""
    told = yield [f"cert {flipped.hex()}" for flipped in flips(data)]
    return counted(read_told(said).partition(",")[0] for (said,) in told)


def check_told(said):
    """What the checker says, as the program tells it."""
    return said if said == "yes" else f"no {said}"


def checks(line, filters, certs):
    """How often each answer comes to filters and certificates side by side. A yes is tried on a grid of records."""
    changed = [*zip(filters, certs)]
    _, *told = yield [line, *(it for data, cert in changed for it in (f"filter bytes {data.hex()}", f"profile check {cert.hex()}"))]
    said = [check_told(answer) for (answer,) in told[1::2]]
    taken_ones = sorted({data for (data, _), answer in zip(changed, said) if answer == "yes"})
    told = yield from side_by_side([agrees(line, data.hex(), [of_halves()]) for data in taken_ones])
    wrong = {data: f"yes, and wrong: it {answer}" for data, (answer,) in zip(taken_ones, told) if answer != "agrees"}
    return counted(wrong.get(data, answer) if answer == "yes" else answer for (data, _), answer in zip(changed, said))


CHECKS = ("check-beginnings", "check-flipped-filter", "check-flipped-certificate")


def checks_of(kind, line, data, cert):
    """The answers to each beginning of a certificate, or to a filter or a certificate with each of its bits flipped."""
    if kind == "check-beginnings":
        certs = [cert[:count] for count in range(len(cert))]
    else:
        certs = [*flips(cert)] if kind == "check-flipped-certificate" else [cert] * (8 * len(data))
    filters = flips(data) if kind == "check-flipped-filter" else [data] * len(certs)
    return (yield from checks(line, filters, certs))


def codes(_rest):
    """The codes of all instructions: those that the kernel's check does not refuse for themselves."""
    filters = (f"filter bytes {code.to_bytes(2, 'little').hex()}{'00' * 6}" for code in range(2**16))
    told = yield [line for one in filters for line in (one, f"filter run {asked.record(0, 0)}")]
    return [" ".join(f"{code:02x}" for code, said in enumerate(told[1::2]) if not said[0].startswith("1 Code"))]


# Questions on files, and others on what stands in the row alone.
ON_FILES = {"nodes": nodes, "nodes-flipped": nodes_flipped}
ON_TEXTS = {
    "build": build,
    "condition": condition,
    "overlap": overlap,
    "strictest": strictest,
    "effect": effect,
    "least": least,
    "record": record,
    "codes": codes,
    "long-chain": long_chain,
}
# Questions that the program answers.
ON_LISTINGS = {"assemble": assemble, "disassemble": disassembled}
# Questions on the profile or the filter that an earlier row made.
ON_MADE = {"decide": ("profile", decide), "run": ("filter", run), "fixed": ("filter", fixed)}
