#!/usr/bin/env python3
"""Counts the atomic steps of the code that runs, and compares them with the bounds of the contracts.

The library is built with no proof (bindings/unproved.py), and calls a function of tests/steps.c before each atomic step on
a word of a memory. That program stops a thread before each step of a change of epoch in turn, makes each kind of call
beside it, and counts. The bounds are the numbers for 3 components and 2 ports that a law of `partial_long_lived` proves of
the contracts. In a memory of so many components that scans don't announce themselves the program has updates overtake
scans, until these change the epoch; the bound of a change of epoch is worked out there, by a sum that has to agree with
the law's numbers. The last line is 'N passed, M failed', as the program says it. It wants a C compiler,
and the kit's.
"""
import os
import re
import subprocess
import sys
import tempfile
from pathlib import Path

sys.dont_write_bytecode = True
import counts

TOP = Path(__file__).resolve().parent.parent
# The functions of the kit's core that make an atomic step on a word; reference counts have functions of their own.
STEPS = {'load', 'store', 'cas', 'fetch_add'}
FUNCTION = re.compile(r'^define .*@"core::raw_atomic::(\w+)::')
ATOMIC = re.compile(r'\b(?:(?:load|store) atomic|atomicrmw|cmpxchg)\b')
CALL = '  call void @partial_step()'


def fail(why):
    print(f'failed: {why}\n0 passed, 1 failed')
    sys.exit(1)


def run(*words):
    """Runs a command, and ends where it fails."""
    ran = subprocess.run(words, cwd=TOP, stdout=subprocess.PIPE, stderr=subprocess.STDOUT, text=True, errors='replace')
    if ran.returncode:
        fail(f'{words[0]}: {ran.stdout[-2000:]}')
    return ran.stdout


def counted(text):
    """The library's text for LLVM, with a call before each atomic step."""
    lines, function, found = [], None, []
    for line in text.splitlines():
        if line.startswith('define '):
            is_step = FUNCTION.match(line)
            function = is_step and is_step.group(1)
        if function and ATOMIC.search(line):
            lines.append(CALL)
            found.append(function)
        lines.append(line)
    if sorted(found) != sorted(STEPS):
        fail(f'the atomic steps are those of {", ".join(found)}')
    return '\n'.join([*lines, 'declare void @partial_step()', ''])


def change(ports, m):
    """The most steps of a change of epoch in a memory of m components (`most_of_change`)."""
    passes = ports * (2 * ports + 3) + 1
    claim = 1 + passes * (2 * ports * (3 * ports + 3) + 1)
    return (1 + 64 * m + m) + claim + (1 + m + 4 + counts.slots(ports, m) + 8 * m) + 6


def bounds(many):
    """The most steps of an update, a conditional update and a scan of all, of 3 components and 2 ports, and of a change of
    epoch of many components and 2 ports."""
    for size, ports, m in ('few', 2, 3), ('more', 4, 64):
        if f'{change(ports, m):,}' != counts.steps(size, 'change'):
            fail(f'a change of epoch is worked out as {change(ports, m):,} steps, not {counts.steps(size, "change")}')
    few = [counts.steps('few', call).replace(',', '') for call in ('update', 'update_if', 'whole_scan')]
    return [*few, str(change(2, many))]


def main():
    kit = Path(run('rt', 'doc').strip()).parent
    many = counts.helped(2) + 1
    with tempfile.TemporaryDirectory(prefix='steps-') as room:
        text, library, program = (f'{room}/{name}' for name in ('library.ll', 'library.o', 'program'))
        run('bindings/unproved.py', text)
        Path(text).write_text(counted(Path(text).read_text(encoding='utf-8')), encoding='utf-8')
        run(f'{kit}/toolchain/bin/clang', '-O2', '-c', text, '-o', library)
        run(os.environ.get('CC', 'cc'), '-std=c11', '-D_GNU_SOURCE', '-Wall', '-Wextra', '-Werror', '-O1', '-Ibindings/c',
            f'-DMANY={many}', 'tests/steps.c', library, f'{kit}/c/liblibc_c.a', '-pthread', '-o', program)
        try:
            return subprocess.run([program, *bounds(many)], timeout=600).returncode
        except subprocess.TimeoutExpired:
            fail('a call beside a stopped thread has not ended')


if __name__ == '__main__':
    sys.exit(main())
