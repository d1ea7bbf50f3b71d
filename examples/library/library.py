#!/usr/bin/env python3
"""A filter for two rules, in Python: library.py libccell.so. (cc -shared -o libccell.so -Wl,--whole-archive libccell.a)"""
import ctypes
import struct
import sys

X86_64, ALLOW, EPERM, EQ = 0xC000003E, 0x7FFF0000, 0x50001, 4


class Condition(ctypes.Structure):
    _fields_ = [("argument", ctypes.c_uint32), ("operator", ctypes.c_uint32), ("value", ctypes.c_uint64), ("datum", ctypes.c_uint64)]


class Rule(ctypes.Structure):
    _fields_ = [("machine", ctypes.c_uint32), ("number", ctypes.c_uint32), ("action", ctypes.c_uint32), ("count", ctypes.c_uint32),
                ("conditions", Condition * 6)]


class Told(ctypes.Structure):
    _fields_ = [("count", ctypes.c_size_t), ("first", ctypes.c_size_t), ("second", ctypes.c_size_t)]


ccell = ctypes.CDLL(sys.argv[1])
u32, size = ctypes.c_uint32, ctypes.c_size_t
rules = (Rule * 2)(Rule(X86_64, 1, ALLOW, 1, (Condition * 6)(Condition(0, EQ, 1, 0))), Rule(X86_64, 231, ALLOW, 0))
out, told = ctypes.create_string_buffer(32768), Told()
status = ccell.ccell_filter_for_rules(
    u32(X86_64), u32(EPERM), (u32 * 1)(X86_64), size(1), rules, size(2), out, size(len(out)), ctypes.byref(told))
print("status", status)
for call, argument in (1, 1), (1, 2), (231, 0):
    record = struct.pack("<IIQ6Q", call, X86_64, 0, argument, 0, 0, 0, 0, 0)
    verdict = u32()
    ccell.ccell_verdict(out, size(told.count), record, size(64), ctypes.byref(verdict))
    print(call, argument, hex(verdict.value))
