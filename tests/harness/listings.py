"""Listings of filters in libseccomp's pseudo code (seccomp_export_pfc): what they say, whatever its order."""
import re

ARCH = re.compile(r"# filter for arch (\w+) \(\d+\)")
CALL = re.compile(r'# filter for syscall "(\w+)" \((\d+)\)(?: \[priority: \d+\])?')
IF = re.compile(r"if \((\$a\d.*)\)")


def paths_of(lines, level, so_far=()):
    """The paths of an indented block: the comparisons that hold or not, and the action. The lines that were read are taken away."""
    found = set()
    while lines and lines[0][0] >= level:
        depth, text = lines.pop(0)
        if text.startswith("action "):
            found.add((so_far, text))
            continue
        asked = IF.fullmatch(text)
        assert asked and depth == level, text
        found |= paths_of(lines, level + 1, (*so_far, (asked.group(1), True)))
        if lines and lines[0] == (level, "else"):
            lines.pop(0)
            found |= paths_of(lines, level + 1, (*so_far, (asked.group(1), False)))
    return found


def read(text):
    """Of each machine its calls, each with its name, number and paths; its default action; and at `other` that of other machines."""
    lines = [(len(line) - len(line.lstrip()), line.strip()) for line in text.splitlines()]
    lines = [(spaces // 2, line) for spaces, line in lines if line.strip("#")]
    machine, said = None, {}
    while lines:
        depth, line = lines.pop(0)
        if ARCH.fullmatch(line):
            machine = ARCH.fullmatch(line).group(1)
            said[machine] = set()
        elif CALL.fullmatch(line):
            name, number = CALL.fullmatch(line).groups()
            assert lines.pop(0) == (1, f"if ($syscall == {number})"), line
            said[machine].add((name, int(number), frozenset(paths_of(lines, 2))))
        elif line.startswith("# invalid architecture action"):
            machine = "other"
            said[machine] = set()
        elif line.startswith("action "):
            said[machine].add((depth, line))
    return said
