"""How a guest's kernel describes the arguments of its calls (tracefs), beside docs/linux-6.18-arguments.txt."""
import shutil

from harness.declared import EVENTS, of_kernel, of_page, unlike
from kernel_side.sides import Tally

# What kernels later than the page's declare (docs/KERNEL.md, "Where a real kernel differs").
LATER = {"bpf": "32 p 32 p 32"}
# How many missing calls are named.
NAMED = 8


def run(guest, machine):
    """Compares each call that the kernel describes."""
    tally, folder = Tally("descriptions"), f"{guest.share}/described"
    shutil.rmtree(folder, ignore_errors=True)
    guest.run(f"mount -t tracefs t /sys/kernel/tracing; mkdir /host/described; cd {EVENTS} && for of in sys_enter_*; do "
              "mkdir /host/described/$of; cat $of/format >/host/described/$of/format; done")
    kernel = of_kernel(folder)
    if not kernel:
        tally.untried.append("all of it: this kernel describes no calls")
    tally.alike, others, missing = unlike(of_page(), kernel, machine.name)
    for name, (told, line) in others.items():
        if LATER.get(name) == line:
            tally.name(f"{name} takes more arguments in later kernels")
        tally.count(LATER.get(name) == line, lambda: f"{name}: {told} on the page, {line} in the kernel")
    if missing:
        tally.untried.append(f"{len(missing)} calls that the page has not: {' '.join(missing[:NAMED])}")
    return tally
