"""The figures of docs/figures, which a test writes if it is asked to.

A file NAME.tsv begins with lines from `#` on, which say what is in it and who writes it. Then come a line of names and the rows, with tabs
between the cells. Files that a test writes have the day and the machine in front.
"""
import datetime
import os

from harness.places import TOP

FOLDER = f"{TOP}/docs/figures"


def machine():
    """What this machine calls its processors, and how many there are."""
    with open("/proc/cpuinfo", encoding="utf-8") as file:
        models = [line.partition(":")[2].strip() for line in file if line.startswith("model name")]
    return f"{models[0] if models else 'unknown'}, {os.cpu_count()} processors"


def read(name):
    """The first lines of a file, its names and its rows."""
    with open(f"{FOLDER}/{name}.tsv", encoding="utf-8") as file:
        lines = file.read().splitlines()
    first = [line for line in lines if line.startswith("#")]
    names, *rows = [line.split("\t") for line in lines[len(first) :]]
    return first, names, rows


def write(name, first, names, rows):
    with open(f"{FOLDER}/{name}.tsv", "w", encoding="utf-8") as file:
        file.write("".join(f"{line}\n" for line in [*first, *("\t".join(map(str, row)) for row in [names, *rows])]))


def measured(name, measured_now, keep):
    """Puts rows that were measured on this machine today into a file: before those that it has, or in their place."""
    first, names, rows = read(name)
    here = [str(datetime.date.today()), machine()]
    write(name, first, names, [[*here, *row] for row in measured_now] + (rows if keep else []))


def faults_of_figures():
    """What is wrong with the files: rows that have not a cell for each name, and crates that are not those of crates.txt."""
    faults = []
    for file in sorted(os.listdir(FOLDER)):
        _, names, rows = read(file.removesuffix(".tsv"))
        faults += [f"{file}: a row has not {len(names)} cells: {row}" for row in rows if len(row) != len(names)]
    with open(f"{TOP}/crates.txt", encoding="utf-8") as file:
        crates = [line.partition(":")[0].split()[0] for line in file if ":" in line and not line.startswith("#")]
    if sorted(row[1] for row in read("crates")[2]) != sorted(crates):
        faults.append("crates.tsv has not the crates of crates.txt: docs/reading-list --write")
    return faults
