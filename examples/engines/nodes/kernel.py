"""Which calls this kernel has. It is asked, and what it answers ENOSYS to it does not have."""
import contextlib
import ctypes
import errno
import mmap
import os
import resource
import signal
import time
from functools import lru_cache

NOBODY, PATIENCE = 65534, 5  # seconds, on a busy node
ARGUMENTS = (-1, 0, 1)  # a call that does many things answers ENOSYS to what it does not know, as futex to -1 and ipc to 0
THERE, NOT_THERE = 1, 0
# push rbx; push rbp; mov eax, edi; mov ebx, esi; the same for ecx, edx, edi and ebp; int 0x80; pop rbp; pop rbx; ret
AS_X86 = bytes.fromhex("5355 89f8 89f3 89f1 89f2 89f7 89f5 cd80 5d5bc3")


def has_x32():
    """Whether this kernel carries out calls of x32: it is asked for getpid. Where it does not say that there is none they count."""
    call = ctypes.CDLL(None, use_errno=True).syscall
    return call(ctypes.c_long(0x40000027)) != -1 or ctypes.get_errno() != errno.ENOSYS


@lru_cache(None)
def has_call(machine, number):
    """Whether this kernel has a call. Where it does not say that there is none the call counts."""
    if machine == "linux-x86" and asked(machine, 20) == -signal.SIGSEGV:
        return False  # it does not even have getpid: no call of this machine is carried out
    return asked(machine, number) != NOT_THERE


def asked(machine, number):
    """How a child ends that makes a call with arguments that mean nothing, with others as long as the kernel says ENOSYS."""
    child = os.fork()
    if child == 0:
        try:
            without_rights()
            os._exit(NOT_THERE if all(says_none(machine, number, each) for each in ARGUMENTS) else THERE)
        finally:
            os._exit(THERE)
    due = time.monotonic() + PATIENCE
    while time.monotonic() < due:
        ended, status = os.waitpid(child, os.WNOHANG)
        if ended:
            return os.waitstatus_to_exitcode(status)
        time.sleep(0.001)
    os.kill(child, signal.SIGKILL)
    os.waitpid(child, 0)
    return THERE


def without_rights():
    """Leaves this process nothing to do harm with: no user, file, child or room on a disk. What it has no right to is told as EPERM."""
    for limit in (resource.RLIMIT_NPROC, resource.RLIMIT_FSIZE, resource.RLIMIT_CORE):
        resource.setrlimit(limit, (0, 0))
    os.setgroups([])
    os.setresgid(NOBODY, NOBODY, NOBODY)
    os.setresuid(NOBODY, NOBODY, NOBODY)
    for handle in map(int, os.listdir("/proc/self/fd")):
        with contextlib.suppress(OSError):  # that of the listing itself is closed
            os.close(handle)


def says_none(machine, number, argument):
    """Whether the kernel says that there is no call of a number."""
    if machine == "linux-x86":
        room = mmap.mmap(-1, mmap.PAGESIZE, prot=mmap.PROT_READ | mmap.PROT_WRITE | mmap.PROT_EXEC)
        room.write(AS_X86)
        call = ctypes.CFUNCTYPE(ctypes.c_int, ctypes.c_uint, ctypes.c_int)(ctypes.addressof(ctypes.c_char.from_buffer(room)))
        return call(number, argument) == -errno.ENOSYS
    call = ctypes.CDLL(None, use_errno=True).syscall
    return call(*map(ctypes.c_long, (number, *[argument] * 6))) == -1 and ctypes.get_errno() == errno.ENOSYS
