"""Widths: how many bits of an argument a kernel reads, of the calls of widths.txt, with upper halves that are set."""
import os

from harness.places import TOP
from kernel_side.real import HERE
from kernel_side.sides import Tally

# What a call answers where something that this process runs in refuses it: EPERM and ENOSYS.
REFUSED = ("-1", "-38")
# What is told of the widths of all calls, where that page stands: a name, and a width an argument.
TABLE = f"{TOP}/docs/linux-6.18-arguments.txt"

# Upper halves: their ends, and all bits. The last is the sign of a negative number.
UPPERS = (1, 0x80000000, 0xFFFFFFFF)


def rows():
    """The rows of widths.txt: a name, an argument's place, its width, the value that has another result, and arguments."""
    with open(f"{HERE}/widths.txt", encoding="utf-8") as file:
        for line in file:
            if not line.startswith("#"):
                head, _, args = line.partition(":")
                name, index, width, *other = head.split()
                yield name, int(index), int(width), other[0] if other else None, args.split()


def told_widths():
    """The widths that the page tells of each call, or None where there is no page."""
    if not os.path.exists(TABLE):
        return None
    with open(TABLE, encoding="utf-8") as file:
        lines = [line.split() for line in file if line.strip() and not line.startswith("#")]
    return {name: told for name, *told in lines}


def compare_with_page(tally, every):
    """Compares the widths that are tried with those that the page tells."""
    page = told_widths()
    if page is None:
        tally.untried.append("whether docs/linux-6.18-arguments.txt tells the same: there is no such page")
        return
    for name, index, width, *_ in every:
        told = page.get(name, [])
        is_right = index < len(told) and told[index] == str(width)
        tally.count(is_right, lambda: f"{name}, argument {index}: {width} bits, and the page tells {told}")


def asked_of(nr, args, index, value):
    """The line that makes a call with another value of one argument."""
    return " ".join(["width", f"{nr:x}", *args[:index], value, *args[index + 1 :]])


def run(sides, dice, more):
    """Tries each row with upper halves at their ends, and with so many others."""
    tally = Tally("widths")
    every = [row for row in rows() if sides.machine.number(row[0]) is not None]
    lacked = sorted({name for name, *_ in rows()} - {name for name, *_ in every})
    if lacked:
        tally.untried.append(f"calls that {sides.machine.name} has not: {' '.join(lacked)}")
    every = [row for row in every if row[0] not in sides.machine.in_memory]
    tally.untried += [f"{name}: {sides.machine.name} has its arguments in memory" for name in sides.machine.in_memory]
    compare_with_page(tally, every)
    uppers = [[*UPPERS, *(dice.below(2**32 - 1) + 1 for _ in range(more))] for _ in every]
    asked, counts = [], []
    for (name, index, width, other, args), some in zip(every, uppers):
        values = [args[index], *(f"{args[index]}/{upper:x}" for upper in some), *([other] if width == 32 else [])]
        asked += [asked_of(sides.machine.number(name), args, index, value) for value in values]
        counts.append(len(values))
    told = iter(sides.real(asked))
    for (name, index, width, *_), some, count in zip(every, uppers, counts):
        plain, *results = [next(told) for _ in range(count)]
        if plain in REFUSED:
            tally.untried.append(f"{name}, argument {index}: it answers {plain} here")
            continue
        if width == 32:
            *results, else_ = results
            tally.count(else_ != plain, lambda: f"{name}, argument {index}: another value has the same result, {plain}")
        for upper, result in zip(some, results):
            is_right = (result == plain) == (width == 32)
            tally.count(is_right, lambda: f"{name}, argument {index}: {plain} without an upper half, {result} with {upper:#x}")
    return tally
