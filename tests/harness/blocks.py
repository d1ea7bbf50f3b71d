"""Files of blocks for the modelled kernel, alone and with the runtime over it.

An empty line stands between any two blocks. The first line of a block says how it is carried out: `kernel`, `runtime` or
`scripts`, and on which machine (tests/README.md). There are two kernels: that whose tasks have lists of filters, and that
whose filters stand in a tree. Calls of the kernel are asked of both. Commands of the runtime are asked of that over lists,
and are scripts of `ccell run`, whose kernel has a tree. Answers are compared.
"""
import json
import os
import subprocess
from itertools import takewhile

from harness.asked import optional, outcome_told, record, reply_told, task_told
from harness.calls import TOKENS, names_of, number_of
from harness.limits import ENDLESS
from harness.places import CCELL
from harness.rows import Fault
from harness.texts import expanded, number
from harness.trials import draw_scripts

WAYS = ("kernel", "runtime", "scripts")
# The lines of a block that are no calls and no commands.
OTHERS = (*WAYS, "bundle", "every-call")
# The empty id.
EMPTY = "''"


def blocks_of(rows):
    """The blocks of a file, each as its rows. One that begins with a comment is a comment."""
    block = []
    for row in rows[1:]:
        if row.text:
            block.append(row)
        else:
            yield block
            block = []
    yield block


def whole_bundle(members):
    """The text of a bundle whose part `seccomp` has these members."""
    return f'{{"ociVersion":"1.0.2","linux":{{"seccomp":{{{members}}}}}}}'


def lines_for(text):
    """The lines that a row of a block stands for."""
    kind, _, rest = text.partition(" ")
    if kind == "#" or kind in WAYS or kind == "every-call":
        return []
    if kind == "bundle":
        name, _, members = rest.partition(" ")
        return [f"bundle {name} {whole_bundle(members)}"]
    if kind == "repeat":
        count, _, part = expanded(rest).partition(" ")
        return [line for i in range(int(count)) for line in part.replace("@", str(i)).split("\n")]
    return expanded(text).split("\n")


def response_in(text):
    """What a listener responds, as it is asked: `continue`, a value, or `error` and a number."""
    return text if text == "continue" or text.startswith("error ") else f"value {number(text)}"


def called(text, native):
    """A call of a task, `ID TASK WHAT ARGUMENT ..` and perhaps `prog BYTES` and `answer RESPONSE`, as it is asked."""
    text, answer, response = text.partition(" answer ")
    name, task, what, *rest = text.split(" ")
    name = "" if name == EMPTY else name
    args, program = (rest[:-2], rest[-1]) if rest[-2:-1] == ["prog"] else (rest, "")
    machine, colon, nr = what.rpartition(":")
    nr, arch = (number(nr), TOKENS[machine]) if colon else (number_of(native, what), TOKENS[native])
    if nr is None:
        raise Fault(f"no call {what}")
    given = f"{program} {response_in(response)}" if answer else program
    return f"{name} {task} {record(nr, arch, [number(arg) for arg in args])} {given}".rstrip(" ")


def asked_of(line, native, places):
    """A line of a block as it is asked, where bundles have places."""
    kind, _, rest = line.partition(" ")
    if kind == "call":
        return f"call {called(rest, native)}"
    name, _, last = rest.partition(" ")
    if kind in ("admit", "create"):
        return f"{kind} {'' if name == EMPTY else name} {places[last]}"
    if kind == "id":
        return f"id - {name}"
    return f"{kind} {'' if name == EMPTY else name} {last}".rstrip(" ")


def bundles_in(block):
    """The texts of a block's bundles by their names."""
    lines = [lines_for(row.text)[0].split(" ", 2) for row in block if row.text.startswith("bundle ")]
    return {name: text for _, name, text in lines}


def kept(native, bundles):
    """What keeps bundles, with filters that are checked, and begins without containers."""
    lines = [f"profile bundle {native} {text}" for text in bundles.values()]
    return ["kernel anew", *(it for line in lines for it in (line, "profile compile", "profile certify", "profile keep"))]


def by_kernels(native, bundles, lines):
    """The answers to calls of the kernel: by that with lists, and where the other has another, by both."""
    places = {name: place for place, name in enumerate(bundles)}
    first = kept(native, bundles)
    told = yield [*first, *(f"kernel {asked_of(line, native, places)}" for line in lines)]
    return [beside(line, answer) for line, answer in zip(lines, told[len(first) :])]


def beside(line, answer):
    """What a call of the kernel is answered, and the other kernel's answer where it is another."""
    kind, _, _ = line.partition(" ")
    told = {"call": outcome_told, "task": task_told, "live": {"true": "yes", "false": "no"}.get}.get(kind, str)
    one, other = [told(it) for it in answer] or ["ok", "ok"]
    return [one] if one == other else [one, f"over a tree: {other}"]


def by_runtime(native, bundles, lines):
    """The replies to commands, by the runtime over the kernel with lists."""
    places = {name: place for place, name in enumerate(bundles)}
    *_, told = yield [*kept(native, bundles), "runtime " + "\t".join(asked_of(line, native, places) for line in lines)]
    return [id_told(it) if line.startswith("id ") else reply_told(it) for line, it in zip(lines, told, strict=True)]


def id_told(text):
    """The id at a place."""
    return optional(text, lambda told: told.strip('"')) or "none"


def by_program(native, bundles, lines, room):
    """The replies of `ccell run` to these commands."""
    for place, (name, text) in enumerate(bundles.items(), 1):
        with open(f"{room}/b{place}", "w", encoding="utf-8") as file:
            file.write(text)
    places = {name: f"b{place}" for place, name in enumerate(bundles, 1)}
    script = "".join(f"{named(line, places)}\n" for line in lines)
    command = [CCELL, "run", native, *places.values()]
    ran = subprocess.run(command, input=script.encode(), cwd=room, capture_output=True, timeout=ENDLESS, check=False)
    replies = ran.stdout.decode().split("\n")[:-1]
    if ran.returncode != 0 or len(replies) != len(lines):
        raise Fault(f"ccell run: status {ran.returncode}, {len(replies)} replies to {len(lines)} lines")
    return [status_or_reply(reply) for reply in replies]
def named(line, places):
    """A command of a script, where bundles have other names."""
    head, _, last = line.rpartition(" ")
    return f"{head} {places[last]}" if line.startswith("create ") else line


def status_or_reply(reply):
    """The status in the reply to `state`, and any other reply as it is."""
    return json.loads(reply)["status"] if reply.startswith("{") else reply


def by_both(native, bundles, lines, room):
    """The replies to commands by the runtime, and above each another one of the program."""
    ones = yield from by_runtime(native, bundles, lines)
    others = iter(by_program(native, bundles, [line for line in lines if not line.startswith("id ")], room))
    pairs = [(one, one if line.startswith("id ") else next(others)) for line, one in zip(lines, ones)]
    return [[one] if one == other else [f"by ccell run: {other}", one] for one, other in pairs]


def tell_row(row, answers):
    """Tells the answers to the lines of one row: the last, and how many of the last are alike, and what stands above any."""
    row.tell(*(line for *above, _ in answers for line in above))
    if answers:
        last = answers[-1][-1]
        times = len([*takewhile(lambda answer: answer[-1] == last, reversed(answers))])
        row.tell(last if times == 1 else f"{last}, {times} times")


def ask_every_call(block):
    """Tells what becomes of each call of the machine, without arguments, as the first of a container."""
    head, *rows = block
    native = head.text.split(" ")[1]
    for row in rows:
        if row.text.startswith("every-call "):
            names = [*names_of(native).values()]
            lines = [line for name in names for line in (f"admit c {row.text.split(' ')[1]}", f"call c 1 {name}")]
            told = yield from by_kernels(native, bundles_in(rows), lines)
            row.tell(*(f"{name}: {line}" for name, answer in zip(names, told[1::2]) for line in answer))


def of_script(line, place):
    """A line of one of many scripts, whose containers have names of their own."""
    kind, name, *rest = line.split(" ")
    return " ".join([kind, f"{name}-{place}", *rest])


def ask_scripts(block, room):
    """Tells that the runtime and the program reply alike to so many random scripts of so many commands, from a seed, or where they do
    not."""
    head, *rows = block
    _, native, seed, count, commands = head.text.split(" ")
    scripts = draw_scripts(int(seed), int(count), int(commands))
    lines = [of_script(line, place) for place, script in enumerate(scripts) for line in script]
    told = yield from by_both(native, bundles_in(rows), lines, room)
    unlike = [f"{line}: {', '.join(answer)}" for line, answer in zip(lines, told) if len(answer) != 1]
    rows[-1].tell(*(unlike or [f"{count} scripts of {commands} commands, alike over both kernels"]))


def ask_block(block, room):
    """Tells the answers to the lines of a block."""
    head, *rows = block
    way, native, *_ = head.text.split(" ")
    asking = [(row, lines_for(row.text)) for row in rows if row.text.partition(" ")[0] not in OTHERS]
    lines = [line for _, some in asking for line in some]
    bundles = bundles_in(rows)
    told = yield from (by_kernels(native, bundles, lines) if way == "kernel" else by_both(native, bundles, lines, room))
    told = iter(told)
    for row, some in asking:
        tell_row(row, [next(told) for _ in some])


def ask_blocks(rows, room):
    """What asks for the answers to the blocks of a file."""
    for place, block in enumerate(blocks_of(rows)):
        if not block or block[0].text.startswith("#"):
            continue
        way = block[0].text.partition(" ")[0]
        if way not in WAYS:
            raise Fault(f"no way to carry out {block[0].text}")
        here = f"{room}/{place}"
        os.mkdir(here)
        if way == "scripts":
            yield ask_scripts(block, here)
            continue
        yield ask_block(block, here)
        if any(row.text.startswith("every-call ") for row in block):
            yield ask_every_call(block)
