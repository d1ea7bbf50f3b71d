"""Questions to the library: the program `ask` reads a question a line, and writes the answer's lines and then a line `.`.

What asks is a generator: it gives the lines of questions, gets the answers, each as its own lines, and goes on, so that later
questions can rest on earlier answers. All that ask side by side are asked in one call, again and again, until none is left. A
later call knows nothing of those before it.
"""
import subprocess

from harness.limits import ENDLESS
from harness.places import ASK
from harness.rows import Fault


def answers(lines):
    """The answers to these lines, each as its own lines."""
    given = "".join(f"{line}\n" for line in lines)
    ran = subprocess.run([ASK], input=given.encode(), capture_output=True, timeout=ENDLESS, check=False)
    told, answer = [], []
    for line in ran.stdout.decode().split("\n")[:-1]:
        if line == ".":
            told.append(answer)
            answer = []
        else:
            answer.append(line)
    if ran.returncode != 0 or len(told) != len(lines):
        said = ran.stderr.decode()[:400].rstrip()
        raise Fault(f"ask: status {ran.returncode}, {len(told)} answers to {len(lines)} lines: {said}")
    return told


def ask_all(askers):
    """Asks for all of them, until each has ended."""
    whole = side_by_side(askers)
    lines = next(whole, None)
    while lines is not None:
        try:
            lines = whole.send(answers(lines))
        except StopIteration:
            return


def side_by_side(askers):
    """Asks as one what several ask, and returns what each returns."""
    ended, pending = {}, {}
    for place, asker in enumerate(askers):
        go_on(ended, pending, place, asker, None)
    while pending:
        told = iter((yield [line for _, lines in pending.values() for line in lines]))
        for place, (asker, lines) in [*pending.items()]:
            go_on(ended, pending, place, asker, [next(told) for _ in lines])
    return [ended[place] for place in sorted(ended)]


def go_on(ended, pending, place, asker, told):
    """Lets one of several go on with its answers, and keeps what it asks next, or what it returns."""
    pending.pop(place, None)
    try:
        pending[place] = asker, asker.send(told)
    except StopIteration as end:
        ended[place] = end.value
