"""All kinds of cases, on both sides of a machine."""
from harness.dice import Dice
from kernel_side import check, handed, listeners, stacks, told, verdict, widths

ALL = told.ALL
# The codes that are tried one by one: all there are, where so many cases are asked for.
FEW_CODES, ALL_CODES, MANY = range(512), range(65536), 500000
# For so many cases one script of tasks is drawn.
SCRIPTS = 200


def of_kinds(both, count, seed):
    """What came of each kind of case."""
    yield check.run(both, Dice(seed), count * 6 // 10, ALL_CODES if count >= MANY else FEW_CODES)
    yield verdict.run(both, Dice(seed), count * 3 // 10)
    yield stacks.run(both, Dice(seed), count // 10)
    yield handed.run(both, Dice(seed), count // SCRIPTS + 1)
    yield listeners.run(both, Dice(seed), count // 10)
    yield widths.run(both, Dice(seed), count // 10000)
    yield told.run(both)


def of_verdicts(both, count, seed):
    """What came of the kinds of cases of a machine whose kernel another machine's programs try: how its calls are judged."""
    yield verdict.run(both, Dice(seed), count)
    yield told.run(both)
