#!/usr/bin/env python3
"""Writes the rules of a bundle as the text that `second` reads: rules.py MACHINE FILE. Written from docs/PROFILES.md alone; it reads
the tables of calls beside that page. It expects a bundle that `ccell read` accepts: of the refusals it knows few."""
import json, pathlib, re, sys

DOCS = pathlib.Path(__file__).resolve().parent.parent / 'docs'
ACTIONS = {'KILL': 0, 'KILL_PROCESS': 0x80000000, 'TRAP': 0x30000, 'ERRNO': 0x50000, 'TRACE': 0x7ff00000,
           'LOG': 0x7ffc0000, 'ALLOW': 0x7fff0000, 'NOTIFY': 0x7fc00000, 'KILL_THREAD': 0}
WHOLE = ['linux-x86-64', 'linux-x86', 'linux-x32', 'linux-aarch64', 'linux-arm',
         'linux-riscv64', 'linux-ppc64le', 'linux-loongarch64', 'linux-s390x', 'linux-s390']   # as the columns of linux-calls.txt
ORDER = ['x86-64', 'linux-x86-64', 'linux-x32', 'linux-x86', 'aarch64', 'linux-aarch64', 'linux-arm',
         'linux-riscv64', 'linux-ppc64le', 'linux-loongarch64', 'linux-s390x', 'linux-s390']


def tables(native):
    """The machines of the family, and each name's number of each of them."""
    family, name_of = (WHOLE, 'linux-calls.txt') if native.startswith('linux') else (['x86-64', 'aarch64'], 'chosen-calls.txt')
    calls = re.findall(r'^(\w+) (\S+)$', (DOCS / name_of).read_text(), re.M)
    return family, {name: dict(zip(family, numbers.split('/'))) for name, numbers in calls}


def verdict(action, data):
    word = ACTIONS[action.removeprefix('SCMP_ACT_')]
    return hex(word + (1 if data is None else data) if action in ('SCMP_ACT_ERRNO', 'SCMP_ACT_TRACE') else word)


def condition(arg):
    operator = arg['op'].removeprefix('SCMP_CMP_')
    datum = ' ' + hex(arg.get('valueTwo', 0)) if operator == 'MASKED_EQ' else ''
    return f' arg{arg["index"]} {operator} {arg["value"]:#x}{datum}'


def text_of(native, bundle):
    by_itself = native.startswith('linux') and 'linux' not in bundle   # a section, as engines take it
    section = bundle if by_itself else bundle['linux']['seccomp']
    family, calls = tables(native)
    listed = [machine.removeprefix('SCMP_ARCH_').lower().replace('_', '-') for machine in section.get('architectures', [])]
    machines = [m for m in ORDER if m in family and (m.removeprefix('linux-') in listed if listed else m == native)]
    rules = {}   # as a set that keeps its order
    for entry in section.get('syscalls', []):
        rest = verdict(entry['action'], entry.get('errnoRet')) + ''.join(map(condition, entry.get('args', [])))
        for name in entry['names']:
            for machine in machines:
                if calls[name][machine] != '-':
                    number = int(calls[name][machine]) + (0x40000000 if machine == 'linux-x32' else 0)
                    rules[f'{machine} {number} {rest}'] = None
    default = verdict(section['defaultAction'], section.get('defaultErrnoRet'))
    head = ['ccell-profile 1', f'native {native}', f'machines {" ".join(machines)}', f'default {default}', f'rules {len(rules)}']
    return '\n'.join(head + list(rules)) + '\n'


if __name__ == '__main__':
    if len(sys.argv) != 3 or sys.argv[1] not in ORDER:
        sys.exit(f'usage: rules.py MACHINE FILE, where MACHINE is one of: {" ".join(ORDER)}')
    try:
        sys.stdout.write(text_of(sys.argv[1], json.loads(pathlib.Path(sys.argv[2]).read_bytes())))
    except (OSError, ValueError) as fault:
        sys.exit(f'rules.py: {fault}')
