"""The kinds of lines that `ccell json` knows: those of docs/figures/json.tsv are those of the table in the sources, in its order."""
import re

from harness.measured import read
from harness.places import TOP

TABLE = f"{TOP}/crates/json_lines/src/table.rt"


def of_sources():
    """The rows of the table in the sources: a command's name, the kind, what it is of, and the line."""
    with open(TABLE, encoding="utf-8") as file:
        text = file.read()
    shapes = dict(re.findall(r'const (\w+): &str =\s+"([^"]*)";', text))
    for command, lines, details in re.findall(r'\("(\w+)", (\w+), (\w+|"")\),', text):
        for of, name in (("line", lines), ("detail", details)):
            for shape in shapes.get(name, "").splitlines():
                kind, _, line = shape.partition(" ")
                yield [command, kind, of, line or kind]


def faults_of_kinds():
    """The rows that stand in one of the two alone, or in another order."""
    sources, page = list(of_sources()), read("json")[2]
    lone = [row for row in sources if row not in page] + [row for row in page if row not in sources]
    if lone or sources == page:
        return [f"json.tsv and the table of json_lines have not the same row: {row}" for row in lone]
    return ["json.tsv has another order than the table of json_lines, or a row that stands twice"]
