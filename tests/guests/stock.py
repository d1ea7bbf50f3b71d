"""crun and runc of Debian on a real kernel, with Debian's own libseccomp: the filter of a container is read back there and judged on this
machine, as an operator does it (docs/ENGINES.md, "Nodes of arm64, riscv64, ppc64le and s390x")."""
import os
import subprocess

from guests import section, system
from harness.limits import ENDLESS
from harness.places import CCELL
from kernel_side.sides import Tally

WORDS = ("runc", "calls")
# The sections, each with the one that says something else.
OTHERS = {"docker": "narrowed", "narrowed": "docker"}
CERTIFICATE, YES, NO = b"CCRT", b"yes, but for these calls:", b"no record "
# How the lines of standard error begin that tell how many bytes of a filter are runc's own.
STUB = "runc's stub, the first "


def stub_of(told):
    """How many bytes in front of a filter `ccell certify` left out."""
    lengths = [line.removeprefix(STUB).split()[0] for line in told.decode().splitlines() if line.startswith(STUB)]
    return int(lengths[0]) if lengths else 0


def certify(machine, bundle, filtered):
    """What `ccell certify` says of a filter: its status, output and standard error."""
    ran = subprocess.run([CCELL, "certify", machine.whole, bundle, filtered, *WORDS], capture_output=True, timeout=ENDLESS, check=False)
    return ran.returncode, ran.stdout, ran.stderr


def is_checked(machine, share, certificate, stub):
    """Whether `ccell check` says yes to a certificate of what stands behind the stub."""
    for name, content in (("certificate", certificate), ("inner", section.content_of(f"{share}/loaded")[stub:])):
        with open(f"{share}/{name}", "wb") as file:
            file.write(content)
    words = [CCELL, "check", machine.whole, *(f"{share}/{name}" for name in ("profile.json", "inner", "certificate"))]
    return subprocess.run(words, capture_output=True, timeout=ENDLESS, check=False).stdout == b"yes\n"


def answer_of(machine, share, told):
    """The answer to a filter in a few words, or None where it is no yes."""
    status, out, lines = told
    if status == 0 and out.startswith(CERTIFICATE):
        return "certificate" if is_checked(machine, share, out, stub_of(lines)) else None
    if status == 0 and out.startswith(YES):
        return f"yes, but for {', '.join(line.strip() for line in out.decode().splitlines()[1:])}"
    return None


def try_filter(both, guest, tally, runtime, name):
    """Judges the filter of a container that a runtime starts under a section; returns its bytes."""
    share, machine = guest.share, both.machine
    loaded, out = system.loaded_by(guest, runtime, system.section_of(guest, name))
    if not loaded:
        tally.count(False, lambda: f"{runtime}, {name}: no filter was read back: {out[-400:]}")
        return loaded
    section.written(["adapt", machine.whole, f"{share}/config.json"], f"{share}/profile.json")
    told = certify(machine, f"{share}/profile.json", f"{share}/loaded")
    answer = answer_of(machine, share, told)
    tally.see(f"{runtime} {name}: {answer}")
    tally.count(answer is not None, lambda: f"{runtime}, {name}: status {told[0]}: {told[1][:300]} {told[2][:600].decode()}")
    # The other section says something else, so of it there is no yes.
    status, out, _ = certify(machine, f"{share}/{OTHERS[name]}.json", f"{share}/loaded")
    tally.count(status == 1 and out.startswith(NO), lambda: f"{runtime}, {name}, beside the other section: status {status}: {out[:300]}")
    return loaded


def try_runtime(both, guest, tally, runtime):
    """Tries a runtime under both sections; returns the lengths of its filters."""
    system.try_to_end(guest, tally, runtime, system.section_of(guest, "docker"))
    filters = {name: try_filter(both, guest, tally, runtime, name) for name in OTHERS}
    if all(filters.values()):
        section.try_calls(both, tally, filters)
    return [f"{runtime} {name} {len(filtered) // 8}" for name, filtered in filters.items()]


def run(guest, both, packages):
    """Tries both runtimes on a guest, after docker's section has been tried there."""
    tally = Tally("stock libseccomp")
    wrong = system.put(guest, packages)
    if wrong:
        tally.untried.append(f"all of it: the system is not mounted: {wrong.decode(errors='replace')}")
        return tally
    lengths = [length for runtime in system.RUNTIMES for length in try_runtime(both, guest, tally, runtime)]
    lengths += [f"ccell {name} {os.path.getsize(f'{guest.share}/{name}.bpf') // 8}" for name in OTHERS]
    tally.kind = f"libseccomp {system.version_of_libseccomp(guest.folder)} ({', '.join(lengths)} instructions)"
    return tally
