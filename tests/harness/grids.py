"""Records on which a filter's verdicts are compared with its profile's, as grids: numbers of calls, and arguments."""
from itertools import product

from harness.drawn import ALL
from harness.texts import number

HALVES = (0, 1, 2, 0x7FFFFFFF, 0x80000000, 0xFFFFFFFF)
# The ends of the numbers of x32 calls: the last before them, the first and the last one, and the next.
X32 = (0x3FFFFFFF, 0x40000000, 0xFFFFFFFE, 0xFFFFFFFF)
# How far numbers lie apart that are near each other, in one half or in both.
STEPS = (0, 1, 1 << 32, (1 << 32) + 1, (1 << 32) - 1)


def grid(numbers, arguments):
    """The question that makes a grid."""
    numbers, arguments = [*numbers], [*arguments]
    parts = [len(numbers), *numbers, len(arguments), *(arg for args in arguments for arg in (*args, *[0] * (6 - len(args))))]
    return f"profile grid {' '.join(map(str, parts))}"


def of_halves():
    """Small numbers, a great one, and those at the ends of x32's, with any halves of two arguments."""
    values = [high << 32 | low for high, low in product(HALVES, HALVES)]
    return grid((*range(9), 435, *X32), product(values, values))


def rules_in(told):
    """The rules `(NUMBER, CONDITIONS)` of a profile's parts, each condition an argument's place, an operator, and one or two numbers."""
    for line in told[1:]:
        _, nr, text = line.split(" ", 2)
        _, *conditions = text.replace(",", "").split(" ", 1)
        yield int(nr), [*conditions_in(conditions[0].split())] if conditions else []


def conditions_in(fields):
    """The conditions in a rule's fields."""
    while fields:
        place, op, *_ = fields
        count = 4 if op == "MASKED_EQ" else 3
        yield int(place), op, *map(number, fields[2:count])
        fields = fields[count:]


def meeting(op, *numbers):
    """An argument that meets a condition, if there is one."""
    step = {"NE": 1, "GT": 1, "LT": -1}.get(op, 0)
    return numbers[-1] + step & ALL


def changed(args, place, value):
    """Arguments with another one at a place."""
    return (*args[:place], value & ALL, *args[place + 1 :])


def near(told, further=()):
    """The numbers of a profile's rules, their neighbours, and those at the ends of x32's, with arguments that meet a rule; and of each
    number arguments where one is near a number of a rule's conditions, or is one of another rule's."""
    rules = [*rules_in(told)]
    by_number, all_met = {}, [(0,) * 6, (1,) * 6, (ALL,) * 6]
    for nr, conditions in rules:
        met = (0,) * 6
        for place, *meant in conditions:
            met = changed(met, place, meeting(*meant))
        all_met.append(met)
        by_number.setdefault(nr, []).append((met, conditions))
    numbers = {nr + step & 2**32 - 1 for nr in by_number for step in (-1, 0, 1)}
    yield grid(sorted({*numbers, *X32, *further}), dict.fromkeys(all_met))
    for nr, alike in by_number.items():
        values = {(place, value) for _, conditions in alike for place, _, *stated in conditions for value in stated}
        arguments = {changed(met, *value) for met, _ in alike for value in values}
        for met, conditions in alike:
            steps = ((place, value + sign * step) for place, _, *stated in conditions for value in stated for step in STEPS for sign in (1, -1))
            arguments.update(changed(met, *step) for step in steps)
        if arguments:
            yield grid([nr], sorted(arguments))
