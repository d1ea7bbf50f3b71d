"""Many rules of one call, with several actions: the errors they get, and what their filter answers. The library keeps rules in chains by
the number of their first `==`, which a few rules do not share: here are enough of them to do so, and to have the chains made anew. A rule
asks for a number of one argument, or for that and a number of the next one; so only rules with the same first number can meet."""
import random

from harness.scmp import action, record
from harness.tally import tell
from second_judge import answer

EXISTS, FIRST, SECOND, VERDICTS = -17, 60, 4, ("ALLOW", "TRAP", "LOG")


def texts(at, numbers):
    """The conditions, as texts."""
    return [f"a{at + i}=={number:#x}" for i, number in enumerate(numbers)]


def wanted(kept, numbers, verdict):
    """The error of a rule beside those before it: one with its conditions decides; else a longer one may follow, and counts for nothing
    where the shorter one does."""
    if numbers in kept:
        return 0 if kept[numbers] == verdict else EXISTS
    unlike = [old for old, its in kept.items() if its != verdict]
    return EXISTS if any(old[:len(numbers)] == numbers for old in unlike) else 0


def add_some(library, chance, kept, at, count):
    """Adds so many rules at random: the first one whose error is not as expected, or nothing."""
    for _ in range(count):
        numbers = tuple(chance.randrange(below) << chance.choice([0, 0, 32]) for below in [FIRST, SECOND][:chance.randint(1, 2)])
        verdict = chance.choice(VERDICTS)
        error, expected = library.add(verdict, "ioctl", *texts(at, numbers)), wanted(kept, numbers, verdict)
        if error != expected:
            return f"{verdict} {texts(at, numbers)}: {error}, and not {expected}: {library.why()}"
        if not error:
            kept.setdefault(numbers, verdict)
    return None


def crowded(library, seed):
    """Adds rules, now and then in a transaction that is rejected, so that the last ones go again."""
    chance = random.Random(seed)
    at, kept, wrong = chance.randrange(5), {}, None
    library.init("ERRNO(1)")
    for _ in range(chance.randint(3, 12)):
        is_rejected = chance.random() < 0.4
        library.transaction("start")
        those = dict(kept)
        wrong = wrong or add_some(library, chance, those, at, chance.randint(1, 60))
        library.transaction("reject" if is_rejected else "commit")
        kept = kept if is_rejected else those
    error, made = library.export()
    for _ in range(0 if wrong or error or not kept else 100):
        numbers = list(chance.choice([*kept]))[:1] + [chance.randrange(SECOND + 1) << chance.choice([0, 0, 32])]
        expected = action(kept.get(tuple(numbers[:1]), kept.get(tuple(numbers), "ERRNO(1)")))
        put = record("x86_64", "16", *["0"] * at, *map(hex, numbers))
        wrong = wrong or (None if answer(made, put) == expected else f"{put.hex()}: {answer(made, put):#x}, and not {expected:#x}")
    library.release()
    tell(not wrong and not error, f"crowded {seed}: {len(kept)} rules: {error} {wrong}")
