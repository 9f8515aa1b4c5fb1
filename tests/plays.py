#!/usr/bin/env python3
"""Sees that nobody steps on a table of words but by a play that is read here, and that each step is counted.

A *play* says what a step on a word says to its seat, so whoever writes a play, a split or a join of views decides what a
port learns. Each `impl` of one of these, in any crate, is listed in KNOWN. The kit's table, `atomic_table`, counts nothing: a
table of `partial_table` counts the steps that its seats make, and is all that the memories use. So no other crate lists
the kit's table in crates.txt. A `peek` of a word is no step at all, and each use of what makes no counted step is listed
in UNCOUNTED. A new one is a failure until it is listed here, and one that is gone is a failure too. The last line is
'N passed, M failed', one for each, and one for each crate that lists the kit's table.
"""
import re
import sys
from pathlib import Path

TOP = Path(__file__).resolve().parent.parent
# The crates that list the kit's table.
OVER_THE_KIT = {'partial_table'}
# By crate and file, whose plays, splits and joins of views stand there.
KNOWN = {
    ('partial_table', 'counted.rt'): 'Counts CountsSplit CountsJoin',
    ('partial_memory', 'rule.rt'): 'MachineStep GoesOn PutsOn Looks Deals Gathers',
    ('partial_long_lived', 'rule.rt'): 'Deals Gathers',
    ('partial_long_lived', 'plays.rt'): 'Look StoreEnteringWord LoadCurrent Arrive See NoteScan Recall Observe',
    ('partial_long_lived', 'machine_plays.rt'):
        'LoadOn StoreOn LoadZero ExchangeOn AddOn Begin BeginScan ExchangeComponent',
    ('partial_long_lived', 'change_plays.rt'):
        'Pass Seal BeginSearch BeginPass Take Give LoadPort Put FindClear SetWord SetLists SetValue FindSetWord FindSetValue '
        'Publish',
}
# By crate and file, which calls of a table that count nothing stand there.
UNCOUNTED = {}
PLAY = re.compile(r'^\s*impl\b[^{;]*?\b(?:Play|Split|Join)<.*?>+ for (\w+)', re.M)
NO_STEP = re.compile(r'(?:\.|::)(peek|load_new_seat|swap_new_seat)\b')


def found_in(crates, pattern):
    """What the pattern finds in the code of these crates, by crate and file."""
    found = {}
    for crate in crates:
        for path in sorted((TOP / 'crates' / crate / 'src').rglob('*.rt')):
            text = re.sub(r'//.*', '', path.read_text(encoding='utf-8'))
            names = pattern.findall(text)
            if names:
                found[crate, str(path.relative_to(TOP / 'crates' / crate / 'src'))] = names
    return found


def faults(found, known):
    """What is found and isn't known, and the other way round; and how many are both."""
    is_found = {(place, name) for place, names in found.items() for name in names}
    is_known = {(place, name) for place, names in known.items() for name in names.split()}
    told = [f'crates/{crate}/src/{file}: {name} is not listed in tests/plays.py'
            for (crate, file), name in sorted(is_found - is_known)]
    told += [f'crates/{crate}/src/{file}: {name} is listed in tests/plays.py, and is not there'
             for (crate, file), name in sorted(is_known - is_found)]
    return told, len(is_found & is_known)


def over_the_kit():
    """The crates that list the kit's table."""
    lines = (TOP / 'crates.txt').read_text(encoding='utf-8').splitlines()
    return {line.split()[0].rstrip(':') for line in lines if not line.startswith('#') and 'atomic_table' in line.split()[1:]}


def main():
    # any crate may hold a table
    every = sorted(path.name for path in (TOP / 'crates').iterdir() if (path / 'src').is_dir())
    over = over_the_kit()
    passed = len(over & OVER_THE_KIT)
    told = [f'crates.txt: {crate} is over atomic_table, and not in tests/plays.py, or the other way round'
            for crate in sorted(over ^ OVER_THE_KIT)]
    for found, known in ((found_in(every, PLAY), KNOWN), (found_in(every, NO_STEP), UNCOUNTED)):
        more, right = faults(found, known)
        told += more
        passed += right
    print(*told, sep='\n', end='\n' if told else '')
    print(f'{passed} passed, {len(told)} failed')
    return 1 if told or not passed else 0


if __name__ == '__main__':
    sys.exit(main())
