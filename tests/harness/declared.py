"""How a kernel declares the arguments of its calls (tracefs), and what docs/linux-6.18-arguments.txt has of them."""
import os
import re

from harness.places import TOP

PAGE = f"{TOP}/docs/linux-6.18-arguments.txt"
EVENTS = "/sys/kernel/tracing/events/syscalls"

# The kernel's names of functions that serve calls of other names.
FUNCTIONS = {
    "newstat": "stat", "newfstat": "fstat", "newlstat": "lstat", "newuname": "uname", "sendfile64": "sendfile",
    "umount": "umount2", "mmap_pgoff": "mmap", "arm64_personality": "personality", "s390_personality": "personality",
    "s390_ipc": "ipc", "fadvise64_64": "fadvise64",
}

# Machines that read a call as another one does, where the page has a line for that one alone.
ALIKE = {"riscv64": "aarch64"}

# Types of 32 bits and of 16. All others that are no pointers are whole.
NARROW = {
    "int": "32", "unsigned int": "32", "unsigned": "32", "uint": "32", "u32": "32", "__u32": "32", "__s32": "32", "pid_t": "32",
    "uid_t": "32", "gid_t": "32",
    "qid_t": "32", "key_t": "32", "key_serial_t": "32", "mqd_t": "32", "clockid_t": "32", "const clockid_t": "32", "timer_t": "32",
    "rwf_t": "32", "umode_t": "16", "enum landlock_rule_type": "32", "const enum landlock_rule_type": "32", "const int": "32",
    "const __u32": "32", "id_t": "32", "old_uid_t": "16", "old_gid_t": "16",
}


def of_page():
    """The lines of docs/linux-6.18-arguments.txt, by machine and name."""
    lines = {}
    with open(PAGE, encoding="utf-8") as file:
        for line in file:
            if line.startswith("#"):
                continue
            words = line.split()
            count = 2 if words[0] in ("x32", "aarch64", "ppc64le", "x86", "s390x") else 1
            lines[" ".join(words[:count])] = " ".join(words[count:])
    return lines


def width(declared):
    """How an argument of this type is read."""
    if "*" in declared or declared in ("cap_user_header_t", "cap_user_data_t", "const cap_user_data_t", "__sighandler_t"):
        return "p"
    return NARROW.get(declared, "64")


def of_kernel(folder):
    """The lines of a kernel's own calls, by the folder that has its description of them."""
    lines = {}
    for event in os.listdir(folder) if os.path.isdir(folder) else []:
        if not event.startswith("sys_enter_"):
            continue
        with open(f"{folder}/{event}/format", encoding="utf-8") as file:
            fields = re.findall(r"^\tfield:(.*?)\s*(\w+);", file.read(), re.MULTILINE)
        # Linux 7.3 also has fields for what arguments point to (__data_loc).
        arguments = [declared.strip() for declared, name in fields
                     if not name.startswith("common_") and name != "__syscall_nr" and not declared.startswith("__data_loc")]
        name = event.removeprefix("sys_enter_")
        lines[FUNCTIONS.get(name, name)] = " ".join(width(declared) for declared in arguments) or "-"
    return lines


def is_declared(name, told, line):
    """Whether a line of the page is what the kernel declares. Of clone's flags, a long, Linux takes the lower half (kernel/fork.c), and of
    the number of ipc, an int, 16 bits (ipc/syscall.c)."""
    return told == line or (name == "clone" and told.replace("32", "64") == line) or (name == "ipc" and told.replace("16", "32") == line)


def unlike(page, kernel, machine):
    """How many lines of a kernel are those of the page, the others with both lines, and which calls the page has not. A line of the page
    for this machine, or for one that is like it, comes before the one for all."""
    alike, others, missing = 0, {}, []
    for name, line in sorted(kernel.items()):
        told = page.get(f"{ALIKE.get(machine, machine)} {name}", page.get(name))
        if told is None:
            missing.append(name)
        elif is_declared(name, told, line):
            alike += 1
        else:
            others[name] = told, line
    return alike, others, missing
