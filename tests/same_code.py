#!/usr/bin/env python3
"""same_code.py PROGRAM: compares the machine code of the pairs of functions in bindings/rust/src/key/by_hand.rs.

PROGRAM is the optimised test of the crate for Rust. Cargo gives it to this script as to a runner:

    cargo test --release --lib --config "target.'cfg(unix)'.runner = ['$PWD/tests/same_code.py']"

The functions of a pair, `keyed_NAME` and `by_hand_NAME`, have to have the same instructions in the same order, up to
addresses and to which registers they use; where they call different functions, these have to be the same likewise. Two
functions that aren't of a pair have to differ. It wants objdump. The last line is 'N passed, M failed', one for each pair
and one for those that differ.
"""
import re
import subprocess
import sys

FUNCTION = re.compile(r'[0-9a-f]+ <(.+)>:$')
INSTRUCTION = re.compile(r' +[0-9a-f]+:\t(.+?)\s*$')
# A jump or a call: what it does, the address, and what is there.
TRANSFER = re.compile(r'(\w+) +[0-9a-f]+ <([^+>]+)(\+0x[0-9a-f]+)?>$')
# An operand by its address, which objdump computes.
PLACED = re.compile(r'-?0x[0-9a-f]+\(%rip\)\s+# ([0-9a-f]+).*')
# What fills the room between two functions.
FILLING = re.compile(r'(data16 )*(cs )?(nop|xchg +%ax,%ax|int3)')
# Registers by their size.
SIZES = (r'%r(?:[abcd]x|[sd]i|8|9|1[0-5])\b', r'%(?:e(?:[abcd]x|[sd]i)|r(?:8|9|1[0-5])d)\b',
         r'%(?:[abcd]x|[sd]i|r(?:8|9|1[0-5])w)\b', r'%(?:[abcd]l|[sd]il|r(?:8|9|1[0-5])b)\b', r'%xmm\d+\b')


def shown(instruction, name):
    """An instruction without addresses and without the names of registers, and the function that it enters, if any."""
    entered = None
    transfer = TRANSFER.match(instruction)
    if transfer and transfer[2] == name:
        instruction = f'{transfer[1]} within'
    elif transfer:
        instruction, entered = f'{transfer[1]} to a function', transfer[2]
    placed = PLACED.search(instruction)
    if placed:
        data = instruction.startswith('lea')
        instruction = PLACED.sub('data' if data else placed[1], instruction)
    for size, registers in enumerate(SIZES):
        instruction = re.sub(registers, f'%{size}', instruction)
    return instruction, entered


def functions(program):
    """The instructions of each function of a program."""
    text = subprocess.run(['objdump', '-d', '--no-show-raw-insn', program], check=True, capture_output=True, text=True).stdout
    code, name = {}, None
    for line in text.splitlines():
        function, instruction = FUNCTION.match(line), INSTRUCTION.match(line)
        if function:
            name = function[1]
            code[name] = []
        elif instruction and name and not FILLING.match(instruction[1]):
            code[name].append(shown(instruction[1], name))
    return code


def same(code, one, other):
    """Whether two functions have the same instructions."""
    return one == other or len(code[one]) == len(code[other]) and all(
        mine == its and (my_callee == its_callee or None not in (my_callee, its_callee) and same(code, my_callee, its_callee))
        for (mine, my_callee), (its, its_callee) in zip(code[one], code[other]))


def main(program):
    code = functions(program)
    names = [name.removeprefix('keyed_') for name in code if name.startswith('keyed_')]
    faults = []
    for name in names:
        keyed, by_hand = f'keyed_{name}', f'by_hand_{name}'
        if by_hand not in code:
            faults.append(f'there is no function {by_hand}')
        elif not same(code, keyed, by_hand):
            faults.append(f'{keyed} has {len(code[keyed])} instructions, and {by_hand} has {len(code[by_hand])} or others')
    if not {'get', 'set'} <= set(names) or same(code, 'keyed_get', 'by_hand_set'):
        faults.append('a read and an update by a key are the same, or are not there')
    print('\n'.join(faults + [f'{len(names) + 1 - len(faults)} passed, {len(faults)} failed']))
    return bool(faults)


if __name__ == '__main__':
    sys.exit(main(sys.argv[1]))
