"""Texts that are no text of a profile (docs/PROFILES.md): one that is, and changes of it, each with the line in which it is wrong then."""

MACHINE = "linux-x86-64"
TEXT = """ccell-profile 1
native linux-x86-64
machines linux-x86-64 linux-x32 linux-x86
default 0x50001
rules 4
linux-x86-64 0 0x7fff0000
linux-x86-64 1 0x7fff0000 arg0 EQ 0x1 arg2 LE 0x1000
linux-x32 1073741824 0x7fff0000
linux-x86 3 0x7fff0000 arg1 MASKED_EQ 0xff 0xf
"""

CHANGES = (
    (1, "ccell-profile 1", "ccell-profile 2"), (1, "ccell-profile 1", "ccell-profile  1"), (1, "ccell-profile 1", "ccell-profile 01"),
    (2, "native linux-x86-64", "native linux-aarch64"), (2, "native linux-x86-64\n", "native linux-x86-64 \n"),
    (2, "native linux-x86-64\n", "native linux-x86-64\r\n"),
    (3, "machines linux-x86-64 linux-x32 linux-x86", "machines linux-x32 linux-x86"),
    (3, "machines linux-x86-64 linux-x32 linux-x86", "machines linux-x86-64 linux-x86 linux-x32"),
    (3, "machines linux-x86-64 linux-x32 linux-x86", "machines linux-x86-64 linux-x86-64 linux-x32 linux-x86"),
    (3, "machines linux-x86-64 linux-x32 linux-x86", "machines x86-64 linux-x86-64 linux-x32 linux-x86"),
    (3, "machines linux-x86-64 linux-x32 linux-x86", "machines linux-x86-64 linux-x32 linux-x86 linux-mips"),
    (4, "default 0x50001", "default 0x050001"), (4, "default 0x50001", "default 0x5000A"), (4, "default 0x50001", "default 0X50001"),
    (4, "default 0x50001", "default 327681"), (4, "default 0x50001", "default 0x"), (4, "default 0x50001", "default 0x150000001"),
    (4, "default 0x50001", "default -0x50001"),
    (5, "rules 4", "rules 04"), (5, "rules 4", "rules +4"), (5, "rules 4", "rules 8193"), (5, "rules 4", "rules 0x4"),
    (9, "rules 4", "rules 3"), (10, "rules 4", "rules 5"),
    (6, "linux-x86-64 0 ", "linux-x86-64 00 "), (6, "linux-x86-64 0 ", "linux-x86-64 4294967296 "), (6, "linux-x86-64 0 ", "linux-arm 0 "),
    (6, "linux-x86-64 0 0x7fff0000", "linux-x86-64 0 0x7fff0000 "), (6, "linux-x86-64 0 0x7fff0000", "linux-x86-64 0"),
    (7, "linux-x86-64 1 0x7fff0000 arg0 EQ 0x1 arg2 LE 0x1000", "linux-x86-64 0 0x7fff0000"),
    (7, "arg0 EQ 0x1", "arg2 EQ 0x1"), (7, "arg0 EQ 0x1", "arg6 EQ 0x1"), (7, "arg0 EQ 0x1", "arg0 IS 0x1"), (7, "arg0 EQ 0x1", "arg0 EQ 1"),
    (7, "arg0 EQ 0x1", "arg0 EQ 0x10000000000000000"), (7, "arg0 EQ 0x1", "arg0 EQ 0x1 0x1"), (7, "arg0 EQ 0x1", "arg0 MASKED_EQ 0x1"),
    (8, "linux-x32 1073741824", "linux-x32 0"), (8, "linux-x32 1073741824", "linux-x32 4294967295"),
    (6, "linux-x86-64 0 ", "linux-x86-64 1073741824 "),
    (9, "0xff 0xf", "0xff 0x100"), (9, "0xff 0xf", "0xff"), (10, "0xf\n", "0xf\n\n"), (9, "0xf\n", "0xf"), (9, "0xf\n", "0xf\0\n"),
)  # fmt: skip


def texts():
    """The changed texts, each with the line in which it is wrong."""
    for line, old, new in CHANGES:
        assert TEXT.count(old) == 1, old
        yield line, TEXT.replace(old, new)
