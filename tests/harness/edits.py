"""Wrong bodies: edits that the prover has to refuse, and the one that the gate tries of each section of docs/PROMISES.md."""
import os
import re
from typing import NamedTuple

TOP = os.path.dirname(os.path.dirname(os.path.dirname(os.path.abspath(__file__))))
PARTS = ("src/", "specs/", "proofs/")
# Sections of the page in which no crate makes a promise of its own.
WITHOUT_EDIT = ("Safe",)


class Row(NamedTuple):
    """A row of edits/sections.tsv."""

    section: str
    crate: str
    edit: str
    function: str

    @property
    def path(self):
        return f"edits/{self.crate}/{self.edit}.edit"


def edited(path, folder):
    """The texts that an edit makes of a crate's files, by their paths. A ValueError reports what keeps it from being applied."""
    with open(path, encoding="utf-8") as file:
        lines = file.read().split("\n")
    name = old = None
    texts, pairs = {}, 0
    for line in lines:
        if line.startswith("file: "):
            name = line.removeprefix("file: ").strip()
            if not name.startswith(PARTS) or not os.path.isfile(f"{folder}/{name}"):
                raise ValueError(f"there is no file {name} in src, specs or proofs")
            if name not in texts:
                with open(f"{folder}/{name}", encoding="utf-8") as file:
                    texts[name] = file.read()
        elif line.startswith("old: "):
            old = line.removeprefix("old: ")
        elif line.startswith("new:"):
            new = line.removeprefix("new:").removeprefix(" ")
            if name is None or not old:
                raise ValueError("a line 'new:' has no 'file:' or 'old:' before it")
            found = texts[name].count(old)
            if found != 1:
                raise ValueError(f"this text is in {name} {found} times: {old.strip()}")
            if new == old:
                raise ValueError(f"this text is replaced by itself: {old.strip()}")
            texts[name] = texts[name].replace(old, new)
            old, pairs = None, pairs + 1
    if old is not None:
        raise ValueError(f"nothing replaces this text: {old.strip()}")
    if not pairs:
        raise ValueError("it has no pair of 'old:' and 'new:'")
    return texts


def sections():
    """The rows of edits/sections.tsv."""
    with open(f"{TOP}/edits/sections.tsv", encoding="utf-8") as file:
        rows = [line.rstrip("\n").split("\t") for line in file if line.strip() and not line.startswith("#")]
    return [Row(section, *edit.split("/"), function) for section, edit, function in rows[1:]]


def promised():
    """The sections of docs/PROMISES.md below its four headings, as they are named there without their crates."""
    with open(f"{TOP}/docs/PROMISES.md", encoding="utf-8") as file:
        heads = re.findall(r"(?m)^### (.*)$", file.read())
    return [re.sub(r" \(.*\)$", "", head) for head in heads]


def functions_changed(row):
    """The names of the functions whose lines an edit changes: for each, the last one that begins above it."""
    folder = f"{TOP}/crates/{row.crate}"
    found = set()
    for name, text in edited(f"{TOP}/{row.path}", folder).items():
        with open(f"{folder}/{name}", encoding="utf-8") as file:
            before = file.read().split("\n")
        for at, (one, other) in enumerate(zip(before, text.split("\n"))):
            if one != other:
                heads = [re.match(r"\s*(?:pub(?:\(\w+\))? )?(?:const )?fn (\w+)", line) for line in before[: at + 1]]
                found.add(next((head[1] for head in reversed(heads) if head), ""))
    return found


def faults_of_sections():
    """What is wrong with edits/sections.tsv, by lines: an edit that is not there, a function that it leaves alone, a section without one."""
    rows = sections()
    for row in rows:
        if not os.path.isfile(f"{TOP}/{row.path}"):
            yield f"edits/sections.tsv: there is no {row.path}"
        elif row.function.rpartition("::")[2] not in functions_changed(row):
            yield f"edits/sections.tsv: {row.path} changes another function than {row.function}"
    wanted = [it for it in promised() if it not in WITHOUT_EDIT]
    for section in sorted(set(wanted) - {row.section for row in rows}):
        yield f"edits/sections.tsv: no edit for the section {section} of docs/PROMISES.md"
    for section in sorted({row.section for row in rows} - set(wanted)):
        yield f"edits/sections.tsv: docs/PROMISES.md has no section {section}"
