"""The questions of one file, and where their answers come from."""
import subprocess

from harness import calls, library
from harness.ask import ask_all
from harness.blocks import ask_blocks, whole_bundle
from harness.pace import pace
from harness.program import Program, arguments_of, is_input
from harness.rows import Fault
from harness.shelf import Shelf, assembled, split_in
from harness.streams import Streams
from harness.texts import number, written_out
from harness.trials import made_up, random_profiles

# Questions on bundles: a machine, the name of a frame, and what stands at the frame's place.
ON_FRAMES = {"compile": library.size, "conforms": library.conforms, "figures": library.figures_of}
ON_SEEDS = {"random": random_profiles, "made-up": made_up}


class Bench:
    """What earlier rows of a file made, and the questions to the library, which are asked at the end in one call."""

    def __init__(self, room, shim, rows):
        self.shelf = Shelf(room, assembled(rows))
        self.program = Program(self.shelf, shim)
        self.streams = Streams(self.shelf, shim)
        self.askers, self.frames = [], {}
        # The lines that make the profile and the filter on which later rows are.
        self.made = {"profile": None, "filter": None}

    def carry_out(self, row, inputs):
        """Carries out a row with the rows of standard input under it. What it asks the library is asked later."""
        kind, _, rest = row.text.partition(" ")
        if kind == "file":
            self.shelf.put(rest)
        elif kind == "more":
            self.shelf.add(rest)
        elif kind == "frame":
            name, text = split_in(rest, 2)
            self.frames[name] = text
        elif kind == "$":
            self.program.session(row, arguments_of(rest), inputs)
        elif kind == "own":
            self.program.own(row, rest)
        elif kind == "certify":
            self.program.certify(row, rest)
        elif kind == "behind":
            self.program.behind(row, rest)
        elif kind == "flattened":
            self.program.flattened(row, rest)
        elif kind == "exported":
            self.program.exported(row, rest)
        elif kind == "pace":
            row.tell(pace(self.shelf, rest))
        elif kind in Streams.KINDS:
            row.tell(self.streams.answer(kind, rest))
        elif calls.is_on_calls(kind):
            row.tell(*calls.answer(kind, rest))
        elif kind in library.ON_LISTINGS:
            row.tell(*library.ON_LISTINGS[kind](written_out(rest)))
        elif kind not in ("", "#"):
            self.askers.append(told(row, self.question(kind, rest)))

    def question(self, kind, rest):
        """What asks the library."""
        if kind == "bundle":
            self.made["profile"] = f"profile bundle {self.bundle(rest)}"
            return library.profile(self.made["profile"])
        if kind == "profile":
            native, members = split_in(rest, 2)
            self.made["profile"] = f"profile bundle {native} {whole_bundle(written_out(members))}"
            return library.taken(self.made["profile"])
        if kind in ON_FRAMES:
            return ON_FRAMES[kind](f"profile bundle {self.bundle(rest)}")
        if kind in ON_SEEDS:
            return ON_SEEDS[kind](*map(number, rest.split()))
        if kind in library.ON_FILES:
            return library.ON_FILES[kind](*map(self.shelf.bytes_of, rest.split()))
        if kind in library.CHECKS:
            native, bundle, *others = rest.split()
            text = self.shelf.bytes_of(bundle).decode().replace("\n", " ")
            return library.checks_of(kind, f"profile bundle {native} {text}", *map(self.shelf.bytes_of, others))
        if kind in library.ON_TEXTS:
            return library.ON_TEXTS[kind](written_out(rest))
        return self.question_on_made(kind, written_out(rest))

    def question_on_made(self, kind, rest):
        """The same, of questions on the profile or the filter of an earlier row."""
        if kind == "compiled":
            return library.is_certified(self.made["profile"])
        if kind == "followed":
            return library.is_certified(self.made["profile"], "follow")
        if kind == "filter":
            return library.is_filter(self.made["profile"], rest)
        if kind == "program":
            self.made["filter"] = library.bytes_line(rest)
            return library.accepted(self.made["filter"])
        if kind in library.ON_MADE:
            made, asker = library.ON_MADE[kind]
            return asker(self.made[made], rest)
        raise Fault(f"no kind of row: {kind}")

    def bundle(self, rest):
        """The machine and the text of a bundle that is told by its frame."""
        native, name, text = split_in(rest + " ", 3)
        return f"{native} {self.framed(name, text[:-1])}"

    def framed(self, name, text):
        """A text at the place of a frame."""
        if name not in self.frames:
            raise Fault(f"no frame {name}")
        return self.frames[name].replace("...", written_out(text), 1)


def told(row, asker):
    """Asks, and tells the answer under a row."""
    try:
        answer = yield from asker
    except Fault as fault:
        answer = [f"? {fault}"]
    row.tell(*answer)


def carry_out_rows(rows, room, shim):
    """Carries out the rows of a file of questions. What a row says that it may not say is its answer."""
    bench = Bench(room, shim, rows)
    for i, row in enumerate(rows):
        if is_input(row.text):
            continue
        inputs = []
        for below in rows[i + 1 :]:
            if not is_input(below.text):
                break
            inputs.append(below)
        try:
            bench.carry_out(row, inputs)
        except (Fault, ValueError, subprocess.SubprocessError) as fault:
            row.tell(f"? {fault}")
    ask_all(bench.askers)


def carry_out_blocks(rows, room):
    """Carries out the blocks of a file."""
    ask_all(ask_blocks(rows, room))
