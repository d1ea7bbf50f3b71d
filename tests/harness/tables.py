"""Tables of the pages, held against the definitions, the files and the program that they tell of.

Each function takes the text of one page and gives what is wrong with its tables. A page is worth what it says: the numbers and
names of faults are those of `specs/Fault` of the crates, codes are what the program makes of the page's own lines, and calls,
sizes and names are asked of the program and the files.
"""
import glob
import os
import re
import struct
import subprocess
import tempfile

from harness.calls import calls
from harness.limits import ENDLESS
from harness.places import CCELL, TOP

# The kinds of refusals on the program's lines, and the crate of each.
KINDS = {
    "refused view": "bpf_insn",
    "refused kernel": "kernel_check",
    "refused profile": "profile_json",
    "refused compile": "rule_compile",
    "refused certify": "certify",
    "refused listing": "bpf_asm",
    "no": "cert_check",
}

# The tables of faults on each page, in order, by the crates that they are of.
FAULTS = {
    "FILTERS.md": ["kernel_check", "bpf_asm"],
    "PROFILES.md": ["profile", "profile_json"],
    "COMPILER.md": ["rule_compile"],
    "CERTIFICATES.md": ["certify", "cert_form"],
}


# The machines that have all calls of Linux, as PROFILES.md tells how many there are.
WHOLE = ("x86-64", "x86", "x32", "AArch64", "ARM", "riscv64", "ppc64le", "loongarch64", "s390x", "s390")


def read(path):
    """The text of a file of the repository."""
    with open(f"{TOP}/{path}", encoding="utf-8") as file:
        return file.read()


def told(*arguments, **files):
    """What the program writes on these arguments, with these files."""
    with tempfile.TemporaryDirectory() as room:
        for name, data in files.items():
            with open(f"{room}/{name}", "wb") as file:
                file.write(data)
        return subprocess.run([CCELL, *arguments], cwd=room, capture_output=True, timeout=ENDLESS, check=False).stdout


def tables(text):
    """The tables of a page, each as its rows of cells. The first row is its head."""
    table = []
    for line in [*text.splitlines(), ""]:
        if line.startswith("|"):
            table.append([cell.strip() for cell in line.strip("|").split("|")])
        elif table:
            yield [table[0], *table[2:]]
            table = []


def labels(crate):
    """The numbers and names of a crate's faults, as its definition has them."""
    name = "Error" if crate == "certify" else "Fault"
    return re.findall(r'^label_of .* = \((\d+), codes "(\w+)"\)', read(f"crates/{crate}/specs/{name}.antt"), re.M)


def faults_of_labels(page, text):
    """The tables of faults, and each fault that stands behind its kind."""
    faults = []
    shown = [
        [tuple(" ".join(row[:2]).split()[:2]) for row in rows]
        for head, *rows in tables(text)
        if head[:2] == ["Number", "Name"] or head[:1] == ["Cause"]
    ]
    names = [[(number, re.match(r"\w+", name)[0]) for number, name in rows] for rows in shown]
    wanted = [labels(crate) for crate in FAULTS.get(os.path.basename(page), [])]
    if names != wanted:
        faults.append(f"its tables of faults are {names}, and the definitions are {wanted}")
    told = re.findall(rf"`({'|'.join(KINDS)}) (\d+) (\w+)", text)
    for head, *rows in tables(text):
        for row in rows:
            kind = re.match(rf"`({'|'.join(KINDS)}) \d", row[0])
            told += [(kind[1], *label) for label in re.findall(r"\b(\d+) ([A-Z]\w+)", " ".join(row[1:])) if kind]
            crate = row[1].strip("`") if head[:2] == ["Fault", "Crate"] else ""
            if re.fullmatch(r"\w+", crate) and re.match(r"(\d+) (\w+)", spelled(row[2:3])[0]).groups() not in labels(crate):
                faults.append(f"{row[2]} is no fault of {crate}")
    faults += [f"there is no {kind} {number} {name}" for kind, number, name in told if (number, name) not in labels(KINDS[kind])]
    return faults


def program_of(listing):
    """The bytes of a listing, or the line that refuses it."""
    return told("assemble", "listing", listing=listing.encode())


def spelled(cells):
    """The texts between backticks of some cells, in order."""
    return [text for cell in cells for text in re.findall(r"`([^`]+)`", cell)]


def forms_of(lines, before):
    """The lines that a cell names. `so` is said of those of the cell before, under another name."""
    if not lines[-1].endswith(" so"):
        return spelled([", ".join(lines)])
    name = spelled(lines)[0]
    return [re.sub(r"^\w+", name, form) for form in before]


def faults_of_codes(page, text):
    """The table of codes and lines: a line is assembled, and begins with its code."""
    faults, before = [], []
    for head, *rows in tables(text):
        if head[:2] != ["Code", "Line"]:
            continue
        for row in rows:
            for codes, lines in zip(row[::2], row[1::2]):
                before = forms_of([lines], before)
                for code, form in zip(spelled([codes]), before, strict=True):
                    line = form.replace("#H", "#0x4").replace("N", "4").replace(",T,F", ",1,0") + "\n"
                    if program_of(line)[:2] != bytes([int(code, 16), 0]):
                        faults.append(f"{line.rstrip()} has not the code {code}")
    return faults


def faults_of_answers(page, text):
    """The tables of texts with what the assembler answers, and of filters with what `verdict` answers."""
    faults = []
    for head, *rows in tables(text):
        for texts, answer, *_ in rows:
            if re.sub(r"`[^`]+`|, then |, ", "", texts) or len(head) != 2 or not spelled([answer]):
                continue
            wanted = spelled([answer])[0]
            if head[1] == "What the assembler answers":
                came = program_of("".join(f"{line}\n" for line in spelled([texts])))
                if came.decode(errors="replace") != f"refused listing {wanted}\n" and came.hex(" ") != wanted:
                    faults.append(f"{texts}: {came}")
            if head[1] == "`ccell verdict` on any record":
                listing = "".join(f"{line}\n" for line in spelled([texts]))
                came = told("verdict", "filter", "rec", filter=program_of(listing), rec=bytes(64)).decode().strip()
                if came != wanted:
                    faults.append(f"{texts}: {came}")
    return faults


def faults_of_actions(page, text):
    """The table of actions with their values, and that of a bundle's actions with the verdicts that they stand for."""
    faults = []
    for head, *rows in tables(text):
        if head[:2] in (["Action", "Value"], ["Action", "Verdict"]):
            for action, value, *_ in rows:
                if re.fullmatch(r"[A-Z_]+", action) and value.startswith("`0x"):
                    listing = told("annotate", "x86-64", "filter", filter=struct.pack("<HBBI", 6, 0, 0, int(value.strip("`"), 16)))
                    if not listing.decode().rstrip().endswith(f" {action}"):
                        faults.append(f"{value} is not {action}: {listing}")
                if action.startswith("`SCMP"):
                    bundle = f'{{"ociVersion":"1.1.0","linux":{{"seccomp":{{"defaultAction":"{action.strip("`")}"}}}}}}'
                    said = told("explain", "x86-64", "bundle", "read", bundle=bundle.encode()).decode()
                    if f" {value.split(',')[0]}" not in re.findall("^verdict 0x[0-9a-f]+( [A-Z_]+)", said, re.M):
                        faults.append(f"{action} is not {value}: {said}")
    return faults


def number_of(machine, name):
    """The number of a call on a machine, or `-`."""
    record = told("record", machine, name)
    return str(struct.unpack("<I", record[:4])[0]) if len(record) == 64 else "-"


def faults_of_calls(page, text):
    """The lists of calls, and how many there are."""
    faults = []
    counts = re.search(r"chosen lists\S*: (\d+) and (\d+) calls", text)
    chosen = re.findall(r"^(\w+) (\d+)/(\d+|-)$", read("docs/chosen-calls.txt"), re.M) if counts else []
    for name, first, second in chosen:
        if (number_of("x86-64", name), number_of("aarch64", name)) != (first, second):
            faults.append(f"{name} is not {first}/{second}")
    if counts and counts.groups() != (str(len(chosen)), str(sum(second != "-" for _, _, second in chosen))):
        faults.append(f"the chosen lists have {len(chosen)} calls")
    for head, *rows in tables(text):
        if tuple(head) == WHOLE:
            faults += faults_of_whole_tables(tuple(rows[0]))
    return faults


def faults_of_whole_tables(counts):
    """The list of all calls of Linux, and how many each machine has."""
    whole = [line for line in read("docs/linux-calls.txt").splitlines() if not line.startswith("#")]
    columns = zip(*(line.split()[1].split("/") for line in whole))
    faults = [] if counts == tuple(str(len(it) - it.count("-")) for it in columns) else ["the whole tables have other numbers of calls"]
    return faults + [f"not as the program has it: {line}" for line in sorted({*whole} ^ {*calls("linux-", "")})]


def faults_of_files(page, text):
    """The tables of files with their sizes, and of bundles with the length of their filters."""
    faults, folder = [], os.path.dirname(f"{TOP}/{page}")
    for head, *rows in tables(text):
        for row in rows:
            name = row[0].strip("`")
            if head[:2] == ["File", "Bytes"] and row[1] and os.path.getsize(f"{folder}/{name}") != int(row[1]):
                faults.append(f"{name} has not {row[1]} bytes")
            if head[:3] == ["Bundle", "MACHINE", "Here"] and name.startswith("examples/"):
                size = len(told("export", row[1].strip("`"), f"{TOP}/{name.split('`')[0]}", "raw")) // 8
                if str(size) != row[2].split("/")[0]:
                    faults.append(f"the filter of {name} on {row[1]} has {size} instructions")
    return faults


def faults_of_commands(page, text):
    """The table of commands: what it runs are commands of the program's own list."""
    listed = [line.split()[0] for line in told("manual").decode().splitlines()]
    for head, *rows in tables(text):
        if head == ["You have", "You run", "You get"]:
            shown = [form.split()[0] for row in rows for form in spelled(row[1:2])]
            unknown = [name for name in shown if name.isalpha() and name not in listed]
            if unknown:
                return [f"it runs {unknown}, which are no commands of the program"]
    return []


def promises(text):
    """The rows of the page of promises, each as its section and its name."""
    for part in re.split(r"(?m)^### ", text)[1:]:
        section = re.sub(r" \(.*\)$", "", part.splitlines()[0])
        yield from ((section, row[0]) for head, *rows in tables(part) if head[0] == "Promise" for row in rows)


def names_of_crates():
    """All names that stand in sources and definitions of crates."""
    found = set()
    for kind in ("src/**/*.rt", "specs/**/*.antt"):
        for path in glob.glob(f"crates/*/{kind}", root_dir=TOP, recursive=True):
            found.update(re.findall(r"[A-Za-z_]\w*", read(path)))
    return found


def unknown_names(rows):
    """The names in the last cells of these rows that no crate has: words with `_` or with a capital inside."""
    known = names_of_crates()
    for row in rows:
        for name in re.findall(r"[A-Za-z_]\w*", re.sub(r"\b(?:tests|docs|specs|src)/\S+", "", row[-1])):
            if ("_" in name or re.search(r"[a-z][A-Z]", name)) and name not in known:
                yield name


def faults_of_promises(page, text):
    """The promises of the page and those of which docs/figures names the contracts, by names that crates have."""
    if os.path.basename(page) != "PROMISES.md":
        return []
    rows = [line.split("\t") for line in read("docs/figures/contracts.tsv").splitlines()[3:]]
    named, faults = [tuple(row[:2]) for row in rows], [f"contracts.tsv: no crate has the name {name}" for name in unknown_names(rows)]
    lone = sorted(set(promises(text)) ^ set(named))
    lone = lone or ([] if list(promises(text)) == named else ["the order, or a row that stands twice"])
    return faults + [f"the page and docs/figures/contracts.tsv have not the same rows: {it}" for it in lone]


CHECKS = (
    faults_of_labels,
    faults_of_codes,
    faults_of_answers,
    faults_of_actions,
    faults_of_calls,
    faults_of_files,
    faults_of_commands,
    faults_of_promises,
)


def faults_of_tables(page, text):
    """What is wrong with the tables of a page, by its path in the repository."""
    return [fault for check in CHECKS for fault in check(page, text)]
