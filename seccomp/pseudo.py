#!/usr/bin/env python3
"""Writes pseudo.h, with the header of libseccomp 2.6: pseudo.py docs/linux-calls.txt seccomp-syscalls.h > seccomp/pseudo.h

A row for each call, in the order of names: its name, and the negative number by which libseccomp's header names it where the
native machine lacks it. A call that this header does not know gets one of its own, below all of those."""
import re
import sys

table, header = (open(name).read() for name in sys.argv[1:3])
known = dict(re.findall(r"#define __PNR_(\w+)\s+(-\d+)", header))
names = {words[0] for words in map(str.split, table.splitlines()) if words and words[0] != "#"}
names |= set(re.findall(r"#define __SNR_(\w+)", header))
print("/* made by pseudo.py */")
for place, name in enumerate(sorted(names)):
    print('{"%s", %d},' % (name, int(known.get(name, -20000 - place))))
