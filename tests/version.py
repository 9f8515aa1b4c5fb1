#!/usr/bin/env python3
"""Compares the version of the crate for Rust with that of the header for C and that of the first heading of the changes.

The last line is 'N passed, M failed'.
"""
import re
import sys
from pathlib import Path

TOP = Path(__file__).resolve().parent.parent
NUMBER = r'(\d+\.\d+\.\d+)'
CRATE = ('bindings/rust/Cargo.toml', rf'^version = "{NUMBER}"$')
OTHERS = [
    ('bindings/rust/Cargo.lock', rf'^name = "partial-door"\nversion = "{NUMBER}"$'),
    ('bindings/c/partial.h', rf'^#define PARTIAL_VERSION "{NUMBER}"$'),
    ('CHANGELOG.md', rf'\A[^#]*# [^#]*## {NUMBER}$'),
]


def version(file, place):
    """The version that a file gives at this place, if it gives one."""
    found = re.search(place, (TOP / file).read_text(encoding='utf-8'), re.M)
    return found and found[1]


def main():
    wanted = version(*CRATE)
    faults = [] if wanted else [f'{CRATE[0]} has no version']
    passed = len([wanted]) - len(faults)
    for file, place in OTHERS:
        given = version(file, place)
        if wanted and given == wanted:
            passed += 1
        else:
            faults.append(f'{file} has the version {given}, and {CRATE[0]} {wanted}')
    print('\n'.join(faults + [f'{passed} passed, {len(faults)} failed']))
    return bool(faults)


if __name__ == '__main__':
    sys.exit(main())
