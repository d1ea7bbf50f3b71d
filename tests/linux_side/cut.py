"""Cuts Linux's own functions by their names out of its source, and keeps them in a folder.

core.inc has the interpreter of kernel/bpf/core.c, filter.inc the check and the translation of net/core/filter.c, seccomp.inc all of
kernel/seccomp.c but its #include lines, fork.inc copy_seccomp of kernel/fork.c, macros.inc macros of two headers, tables.inc the sizes of
the tables of calls, and linux/ the headers for programs that these use.
"""
import os
import re
import shutil

from harness.rows import Fault

HEADERS = ("bpf_common.h", "bpf.h", "filter.h", "seccomp.h")
MAKEFILE, CORE, NET, SECCOMP, FORK = "Makefile", "kernel/bpf/core.c", "net/core/filter.c", "kernel/seccomp.c", "kernel/fork.c"
FILTER_HEADER, SECCOMP_HEADER = "include/linux/filter.h", "include/linux/seccomp.h"
TABLE, TABLE_X86 = "arch/x86/entry/syscalls/syscall_64.tbl", "arch/x86/entry/syscalls/syscall_32.tbl"
# All files of the source that are looked at.
FILES = (MAKEFILE, CORE, NET, SECCOMP, FORK, FILTER_HEADER, SECCOMP_HEADER, TABLE, TABLE_X86,
         *(f"include/uapi/linux/{name}" for name in HEADERS))

MACROS = """BPF_REG_ARG1 BPF_REG_ARG2 BPF_REG_ARG3 BPF_REG_ARG4 BPF_REG_ARG5 BPF_REG_CTX BPF_REG_FP BPF_REG_A BPF_REG_X BPF_REG_TMP BPF_REG_D
BPF_REG_H BPF_REG_AX MAX_BPF_EXT_REG BPF_TAIL_CALL BPF_PROBE_MEM BPF_PROBE_MEMSX BPF_CALL_ARGS BPF_NOSPEC MAX_BPF_STACK BPF_ALU64_REG_OFF
BPF_ALU64_REG BPF_ALU32_REG_OFF BPF_ALU32_REG BPF_ALU64_IMM_OFF BPF_ALU64_IMM BPF_ALU32_IMM_OFF BPF_ALU32_IMM BPF_ENDIAN BPF_MOV64_REG
BPF_MOV32_REG BPF_MOV64_IMM BPF_MOV32_IMM BPF_MOV32_RAW BPF_LDX_MEM BPF_STX_MEM BPF_JMP_REG BPF_JMP_IMM BPF_JMP_A BPF_CALL_IMM BPF_EMIT_CALL
BPF_RAW_INSN BPF_EXIT_INSN BPF_FIELD_SIZEOF bytes_to_bpf_size bpf_classic_proglen""".split()
SECCOMP_MACROS = ("SECCOMP_FILTER_FLAG_MASK", "SECCOMP_NOTIFY_ADDFD_SIZE_VER0", "SECCOMP_NOTIFY_ADDFD_SIZE_LATEST")
OF_NET = """bpf_convert_filter check_load_and_stores chk_code_allowed bpf_check_basics_ok bpf_check_classic bpf_prog_store_orig_filter
bpf_release_orig_filter __bpf_prog_release bpf_migrate_filter bpf_prepare_filter bpf_prog_create_from_user bpf_prog_destroy""".split()


def function(source, name):
    """A function, to the closing brace at the margin."""
    return found(rf"^(?:[a-z_][\w *]*[ *\n])?{name}\((?:[^;{{]|\n)*?\)\n\{{\n.*?^\}}\n", source, name)


def macro(source, name):
    """A macro, with the lines that go on behind a backslash."""
    return found(rf"^#define {name}(?=\(|\s)(?:[^\n]*\\\n)*[^\n]*\n", source, name)


def found(pattern, source, name):
    """The first text of this form. A kernel without it is another one than this test knows."""
    match = re.search(pattern, source, re.MULTILINE | re.DOTALL)
    if not match:
        raise Fault(f"this source of Linux has no {name}")
    return match[0]


def span(source, first, last):
    """The text from one line up to another."""
    return found(f"{re.escape(first)}.*?{re.escape(last)}\n", source, first)


def rows_of(table):
    """The rows of a table of calls: number, kind and name."""
    return [line.split()[:3] for line in table.splitlines() if line[:1].isdigit()]


def size_of(table, kinds):
    """How many numbers a table has of some kinds of calls: the greatest one, and 0."""
    return 1 + max(int(number) for number, kind, _ in rows_of(table) if kind in kinds)


def core_of(source):
    """The interpreter, and what chooses among its sizes of a stack."""
    return (span(source, "#define BPF_R0", "#define IMM\tinsn->imm") + macro(source, "BPF_INSN_MAP") + function(source, "abs_s32")
            + function(source, "___bpf_prog_run") + span(source, "#define PROG_NAME(stack_size)", "#undef PROG_NAME_LIST")
            + function(source, "__bpf_prog_ret0_warn") + function(source, "bpf_prog_select_interpreter"))


def tables_of(table, table_x86):
    """The sizes of both tables, and the numbers of the calls that pass every filter."""
    passing = [f"#define __NR_{name} {number}\n" for number, _, name in rows_of(table) if name in ("uretprobe", "uprobe")]
    return (f"#define NR_syscalls {size_of(table, ('common', '64'))}\n"
            f"#define IA32_NR_syscalls {size_of(table_x86, ('i386',))}\n" + "".join(passing))


def cut(tree, folder):
    """Cuts all of them out of a tree of the source into a folder."""
    def text(name):
        with open(f"{tree}/{name}", encoding="utf-8") as file:
            return file.read()

    macros = [macro(text(FILTER_HEADER), name) for name in MACROS] + [macro(text(SECCOMP_HEADER), name) for name in SECCOMP_MACROS]
    parts = {
        "core.inc": core_of(text(CORE)),
        "filter.inc": "\n".join(function(text(NET), name) for name in OF_NET),
        "seccomp.inc": re.sub(r"^#include .*", "", text(SECCOMP), flags=re.MULTILINE),
        "fork.inc": function(text(FORK), "copy_seccomp"),
        "macros.inc": "".join(macros),
        "tables.inc": tables_of(text(TABLE), text(TABLE_X86)),
        "linux/compiler.h": "#define __user\n",
    }
    os.makedirs(f"{folder}/linux")
    for name, content in parts.items():
        with open(f"{folder}/{name}", "w", encoding="utf-8") as file:
            file.write(content)
    for name in HEADERS:
        shutil.copy(f"{tree}/include/uapi/linux/{name}", f"{folder}/linux/{name}")
