"""Calls of libseccomp's interface, of whichever library has them: ours, or libseccomp itself as a peer; and in this process, or in
one of another machine under an emulator."""
import ctypes
import os
import re
import struct
import subprocess
import tempfile

ACTIONS = {"KILL": 0, "KILL_PROCESS": 0x80000000, "TRAP": 0x30000, "LOG": 0x7FFC0000, "ALLOW": 0x7FFF0000, "NOTIFY": 0x7FC00000}
WITH_DATA = {"ERRNO": 0x50000, "TRACE": 0x7FF00000}
ARCHS = {"native": 0, "x86_64": 0xC000003E, "x86": 0x40000003, "x32": 0x4000003E, "aarch64": 0xC00000B7, "arm": 0x40000028,
         "mips": 8, "mipsel": 0x40000008, "ppc64le": 0xC0000015, "s390x": 0x80000016, "riscv64": 0xC00000F3,
         "loongarch64": 0xC0000102, "m68k": 4, "sh": 0x4000002A, "sheb": 0x2A}
TOKENS = dict(ARCHS, native=0xC000003E, x32=0xC000003E)
ATTRIBUTES = {"default": 1, "badarch": 2, "nnp": 3, "tsync": 4, "tskip": 5, "log": 6, "ssb": 7, "optimize": 8, "rawrc": 9,
              "waitkill": 10}
OPERATORS = {"!=": 1, "<": 2, "<=": 3, "==": 4, ">=": 5, ">": 6}
CONDITION = re.compile(r"a(\d+)(?:&(\w+))?(==|!=|<=|>=|<|>)(\w+)$")


def action(text):
    """The number of an action, as `ERRNO(13)`, or a number."""
    name, _, datum = text.rstrip(")").partition("(")
    if name in WITH_DATA:
        return WITH_DATA[name] | int(datum or "1", 0)
    return ACTIONS[name] if name in ACTIONS else int(text, 0)


def condition(text):
    """A condition, as `a0==1` or `a1&0xff==2`: argument, operator and both values. Any other text is one with operator 0."""
    found = CONDITION.match(text)
    if not found:
        return 0, 0, 0, 0
    index, mask, operator, value = found.groups()
    if mask:
        return int(index), 7, int(mask, 0), int(value, 0)
    return int(index), OPERATORS[operator], int(value, 0), 0


class Comparison(ctypes.Structure):
    """struct scmp_arg_cmp."""

    _fields_ = [("arg", ctypes.c_uint), ("op", ctypes.c_int), ("a", ctypes.c_uint64), ("b", ctypes.c_uint64)]


class Here:
    """A library in this process, and one context."""

    def __init__(self, path):
        self.calls = ctypes.CDLL(path)
        for name in ("seccomp_init", "seccomp_syscall_resolve_num_arch"):
            getattr(self.calls, name).restype = ctypes.c_void_p
        self.has_why = hasattr(self.calls, "ccell_why")
        if self.has_why:
            self.calls.ccell_why.restype = ctypes.c_char_p
        self.context = self.aside = None

    def why(self):
        """Why the last call was refused, or what it left out; of libseccomp itself nothing."""
        return self.calls.ccell_why().decode() if self.has_why else ""

    def bare(self, name, *arguments):
        """A call without a context."""
        made = [a.encode() if isinstance(a, str) else ctypes.c_uint32(a) for a in arguments]
        return getattr(self.calls, f"seccomp_{name}")(*made)

    def ask(self, name, *arguments):
        """A call on the context."""
        return getattr(self.calls, f"seccomp_{name}")(self.context, *(ctypes.c_uint32(a) for a in arguments))

    def init(self, default):
        """A new context: whether there is one."""
        self.release()
        made = self.bare("init", default)
        self.context = ctypes.c_void_p(made) if made else None
        return made is not None

    def release(self):
        """Gives the context back."""
        if self.context:
            self.ask("release")
        self.context = None

    def put_aside(self):
        """Puts the context aside: the next one is another."""
        if self.aside:
            self.calls.seccomp_release(self.aside)
        self.aside, self.context = self.context, None

    def merge(self):
        """seccomp_merge of this context into the one that was put aside, which then is the only one."""
        error = self.calls.seccomp_merge(self.aside, self.context)
        if not error:
            self.aside, self.context = None, self.aside
        return error

    def get(self, attribute):
        """seccomp_attr_get: the error, or the value."""
        held = ctypes.c_uint32()
        error = self.calls.seccomp_attr_get(self.context, attribute, ctypes.byref(held))
        return error or held.value

    def add(self, name, verdict, number, conditions):
        """A rule with conditions, by the call of this name."""
        listed = (Comparison * max(1, len(conditions)))(*(Comparison(*c) for c in conditions))
        return getattr(self.calls, f"seccomp_{name}")(self.context, ctypes.c_uint32(verdict), number, len(conditions), listed)

    def name(self, token, number):
        """seccomp_syscall_resolve_num_arch."""
        made = self.bare("syscall_resolve_num_arch", token, number)
        return ctypes.string_at(made).decode() if made else "null"

    def export(self):
        """The error, and what is written into a file."""
        with tempfile.TemporaryFile() as file:
            error = self.ask("export_bpf", file.fileno())
            file.seek(0)
            return error, file.read()

    def listing(self):
        """The error, and the listing that is written into a file."""
        with tempfile.TemporaryFile() as file:
            error = self.ask("export_pfc", file.fileno())
            file.seek(0)
            return error, file.read().decode()

    def memory(self, room):
        """seccomp_export_bpf_mem with so much room: the error, the bytes and how many are wanted."""
        held, length = ctypes.create_string_buffer(max(room, 1)), ctypes.c_size_t(room)
        error = self.calls.seccomp_export_bpf_mem(self.context, held if room else None, ctypes.byref(length))
        return error, held.raw[: min(room, length.value)], length.value


class Ended(Exception):
    """The other process ended instead of answering."""


class Far:
    """A library in another process, or of another machine, and one context. tests/asked.c makes the calls there, by a command."""

    def __init__(self, command):
        self.command = command
        self.start()

    def start(self):
        """Starts the other process, also once more after it has ended."""
        self.errors = tempfile.TemporaryFile("w+")
        self.asked = subprocess.Popen(self.command, stdin=subprocess.PIPE, stdout=subprocess.PIPE, stderr=self.errors, text=True)
        self.context = False

    def why(self):
        """Why the last call was refused, or what it left out."""
        return " ".join(self.line("why")).strip()

    def written(self):
        """What the other process has written on standard error."""
        self.errors.seek(0)
        return self.errors.read()

    def close(self):
        """Ends the other process: what is wrong, or nothing."""
        self.asked.stdin.close()
        self.asked.stdout.close()
        status = self.asked.wait()
        return f"status {status}\n{self.written()}" if status else None

    def line(self, *words):
        """The answer to a line."""
        print(*words, file=self.asked.stdin, flush=True)
        answer = self.asked.stdout.readline()
        if not answer:
            raise Ended(f"{' '.join(map(str, words))}: no answer, and status {self.asked.wait()}\n{self.written()}")
        return answer.split(" ")

    def bare(self, name, *arguments):
        """A call without a context."""
        return int(self.line(name, *arguments)[0])

    ask = bare

    def init(self, default):
        """A new context: whether there is one."""
        self.context = self.bare("init", default) == 0
        return self.context

    def release(self):
        """Gives the context back."""
        self.bare("release")
        self.context = False

    def put_aside(self):
        """Puts the context aside: the next one is another."""
        self.context = self.bare("put_aside") != 0

    def merge(self):
        """seccomp_merge of this context into the one that was put aside, which then is the only one."""
        return self.bare("merge")

    def get(self, attribute):
        """seccomp_attr_get: the error, or the value."""
        return self.bare("attr_get", attribute)

    def add(self, name, verdict, number, conditions):
        """A rule with conditions, by the call of this name."""
        return self.bare(name, verdict, number, *(number for condition in conditions for number in condition))

    def name(self, token, number):
        """seccomp_syscall_resolve_num_arch."""
        return self.line("syscall_resolve_num_arch", token, number)[0].strip()

    def export(self):
        """The error, and what is written into a file."""
        error, digits = self.line("export_bpf")
        return int(error), bytes.fromhex(digits)

    def memory(self, room):
        """seccomp_export_bpf_mem with so much room: the error, the bytes and how many are wanted."""
        length, error, digits = self.line("export_bpf_mem", room)
        return int(error), bytes.fromhex(digits), int(length)


class Library:
    """A library with libseccomp's calls, asked by texts, wherever it is."""

    def __init__(self, path):
        self.at = path if isinstance(path, Far) else Here(path)

    def why(self):
        """Why the last call was refused, or what it left out."""
        return self.at.why()

    @property
    def context(self):
        """Whether there is a context."""
        return self.at.context

    def release(self):
        """Gives the context back."""
        self.at.release()

    def close(self):
        """Ends the process of a library that is far away: what is wrong, or nothing."""
        return self.at.close()

    def init(self, default):
        """A new context."""
        return 0 if self.at.init(action(default)) else "null"

    def arch(self, what, name):
        """seccomp_arch_add and so on."""
        return self.at.ask(f"arch_{what}", ARCHS[name])

    def attr(self, what, name, value="0"):
        """seccomp_attr_get and seccomp_attr_set; where one is got, its value."""
        attribute = ATTRIBUTES[name] if name in ATTRIBUTES else int(name, 0)
        return self.at.ask("attr_set", attribute, action(value)) if what == "set" else self.at.get(attribute)

    def number(self, text):
        """A call's number, or that of its name."""
        return int(text) if re.fullmatch(r"-?\d+", text) else self.at.bare("syscall_resolve_name", text)

    def add(self, verdict, call, *conditions, how="rule_add_array"):
        """A rule, by seccomp_rule_add_array."""
        return self.at.add(how, action(verdict), self.number(call), [condition(text) for text in conditions])

    def exact(self, verdict, call, *conditions):
        """A rule, by seccomp_rule_add_exact_array."""
        return self.add(verdict, call, *conditions, how="rule_add_exact_array")

    def resolve(self, arch, name):
        """seccomp_syscall_resolve_name_arch."""
        return self.at.bare("syscall_resolve_name_arch", ARCHS[arch], name)

    def rewrite(self, arch, name):
        """seccomp_syscall_resolve_name_rewrite."""
        return self.at.bare("syscall_resolve_name_rewrite", ARCHS[arch], name)

    def name(self, arch, number):
        """seccomp_syscall_resolve_num_arch."""
        return self.at.name(ARCHS[arch], int(number))

    def plain(self, call, *numbers):
        """A call on the context and numbers."""
        return self.at.ask(call, *(action(n) for n in numbers))

    def aside(self):
        """Puts the context aside."""
        self.at.put_aside()
        return 0

    def merge(self):
        """seccomp_merge into the context that was put aside."""
        return self.at.merge()

    def transaction(self, what):
        """seccomp_transaction_start, commit and reject, of which the last answers nothing."""
        answer = self.at.ask(f"transaction_{what}")
        return 0 if what == "reject" else answer

    def export(self):
        """The filter that is exported, behind the error."""
        return self.at.export()

    def listing(self):
        """The listing by seccomp_export_pfc, behind the error."""
        return self.at.listing()

    def memory(self, room):
        """seccomp_export_bpf_mem."""
        return self.at.memory(room)


def record(arch, number, *arguments):
    """The 64 bytes of a call record."""
    arguments = [int(a, 0) for a in arguments] + [0] * (6 - len(arguments))
    return struct.pack("<IIQ6Q", int(number, 0) & 0xFFFFFFFF, TOKENS[arch], 0, *arguments)
