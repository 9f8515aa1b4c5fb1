#!/usr/bin/env python3
"""locked.py PROGRAM KIND CALLS: how many locked instructions the program makes with these words, counted by callgrind
over the addresses at which objdump shows one: those with a lock prefix, and exchanges with memory, which lock by
themselves. It wants valgrind, objdump and nm."""
import re
import subprocess
import sys
import tempfile
from collections import Counter, defaultdict
from pathlib import Path


def counts(words):
    """How often each address was executed, by the names of functions."""
    with tempfile.NamedTemporaryFile() as out:
        subprocess.run(['valgrind', '--tool=callgrind', '--dump-instr=yes', '--dump-line=no', '--compress-strings=no',
                        '--compress-pos=no', f'--callgrind-out-file={out.name}', *words],
                       check=True, capture_output=True)
        lines = Path(out.name).read_text(encoding='utf-8', errors='replace').splitlines()
    made, name, called = defaultdict(Counter), '', False
    for line in lines:
        if line.startswith('fn='):
            name = line[3:]
        # The line after a call has what the callee cost, which stands at its own addresses too.
        elif not called and (found := re.match(r'(0x[0-9a-f]+) (\d+)', line)):
            made[name][int(found[1], 16)] += int(found[2])
        called = line.startswith('calls=')
    return made


def locked_addresses(program):
    """The addresses of locked instructions in the program's file."""
    text = subprocess.run(['objdump', '-d', '--no-show-raw-insn', program],
                          check=True, capture_output=True, text=True).stdout
    found = re.findall(r'^ *([0-9a-f]+):\s+(lock\b.*|xchg\s.*\(.*)$', text, re.M)
    return {int(address, 16) for address, _ in found}


def main():
    program, *words = sys.argv[1:]
    made = counts([program, *words])
    symbols = subprocess.run(['nm', program], check=True, capture_output=True, text=True).stdout
    if 'main' not in made:
        sys.exit('locked.py: callgrind names no main')
    moved = min(made['main']) - int(re.search(r'^([0-9a-f]+) T main$', symbols, re.M)[1], 16)
    locked = locked_addresses(program)
    print(sum(times for steps in made.values() for address, times in steps.items() if address - moved in locked))


if __name__ == '__main__':
    main()
