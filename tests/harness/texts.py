"""Texts, numbers and bytes, as row files write them."""
import re
from itertools import groupby

RUN = re.compile(r"<([0-9]+) ([^<>]*)>")


def number(text):
    """A number in decimal, or in hexadecimal after `0x`."""
    return int(text, 16) if text.startswith("0x") else int(text)


def written_out(text):
    """A text with each run `<N TEXT>` written out: N times TEXT, in which `@` counts from 0."""
    return RUN.sub(lambda run: "".join(run[2].replace("@", str(i)) for i in range(int(run[1]))), text)


def expanded(text):
    """A text with its runs written out, and with line feeds and carriage returns for `\\n` and `\\r`."""
    return written_out(text).replace("\\n", "\n").replace("\\r", "\r")


def bytes_of(text):
    """The bytes of hexadecimal digits in parts, where `N*DIGITS` stands for so many times these."""
    data = bytearray()
    for part in text.split():
        count, star, digits = part.rpartition("*")
        data += bytes.fromhex(digits) * (number(count) if star else 1)
    return bytes(data)


def is_digits(text):
    """Whether a text is bytes in hexadecimal digits."""
    return re.fullmatch("([0-9a-f]{2})*", text) is not None


def grouped(data):
    """Bytes as digits, in groups of eight bytes, where `N*GROUP` stands for so many times one."""
    groups = (data[i : i + 8] for i in range(0, len(data), 8))
    runs = ((group, len(list(alike))) for group, alike in groupby(groups))
    return " ".join(group.hex() if count == 1 else f"{count}*{group.hex()}" for group, count in runs)


def lines_of(text):
    """The lines of a text, and behind a last one without a line feed one that says so."""
    lines = text.split("\n")
    last = lines.pop()
    return lines + [last, "(without a line feed)"] if last else lines
