"""A process that does what its words say, and then waits: `held.py WORD..`. It prints a line once it waits.

  FILE    loads the filter of a file in the first thread
  +       starts a thread, with the filters that there are by then
  +FILE   starts a thread that loads the filter of a file by itself
  child   goes on in a child, the parent waiting for it
  gone    ends the first thread alone
"""
import ctypes
import os
import sys
import threading
import time

LIBC = ctypes.CDLL(None, use_errno=True)
PATIENCE = 60  # seconds for a thread to load its filter


class Program(ctypes.Structure):
    _fields_ = [("length", ctypes.c_ushort), ("instructions", ctypes.c_void_p)]


def load(path):
    """Loads a filter for the calling thread alone."""
    with open(path, "rb") as file:
        content = file.read()
    held = ctypes.create_string_buffer(content)
    program = Program(len(content) // 8, ctypes.addressof(held))
    if LIBC.prctl(38, 1, 0, 0, 0) or LIBC.prctl(22, 2, ctypes.byref(program), 0, 0):
        raise OSError(ctypes.get_errno(), path)


def wait(path="", loaded=None):
    """Waits without an end, once the filter of a file is loaded, if there is one."""
    if path:
        load(path)
    if loaded:
        loaded.set()
    while True:
        time.sleep(1000)


def main():
    for word in sys.argv[1:]:
        if word.startswith("+"):
            loaded = threading.Event()
            threading.Thread(target=wait, args=(word[1:], loaded), daemon=True).start()
            if not loaded.wait(PATIENCE):
                raise TimeoutError(word)
        elif word == "child":
            if child := os.fork():
                os.waitpid(child, 0)
                return
        elif word != "gone":
            load(word)
    print(os.getpid(), flush=True)
    if sys.argv[-1] == "gone":
        LIBC.syscall(60, 0)  # exit, of this thread alone
    wait()


main()
