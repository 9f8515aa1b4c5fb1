#!/usr/bin/env python3
"""Sees that each name of a definition in specs/ means one thing: it is defined in one file of all crates; and that
definitions and proofs use the same word where the kit has two for one function.

The two memories, `partial_memory` and `partial_long_lived`, give some names to what means the same in both, so that
proofs over the one are read, and mostly written, like those over the other. SHARED lists these names; one that no
longer stands in both is a failure too. The last line is 'N passed, M failed', one for each name, and one for each file
of definitions or proofs.
"""
import re
import sys
from collections import defaultdict
from pathlib import Path

TOP = Path(__file__).resolve().parent.parent
MEMORIES = ('partial_long_lived', 'partial_memory')
# What a client reads in the contracts of both memories; then what their rules and their seats have in common.
SHARED = set('''
Answered AreAllPorts AreByOpened ClosedWithAllPorts Closes ClosesLawfully ClosesWithAll Goes IsInOnePort IsOf IsPortIn
IsPortOf IsRefused Knows MayNotOpen Meets MemoryView OpenedPortsAreAll PortView Reads Scans Updates UpdatesIf new_ports
open_code port_view

CallMade ComesTo IsGoing IsOne IsResting IsRuleKept IsUnderWay SeatedPort asked_change goes_on leads_itself leads_on
makes newcomer newcomers nobody one_of
'''.split())
# The kit's other name of what definitions and proofs call so.
OTHERS = {
    'cond': 'if .. then .. else',
    'eqb': '== or nat_eq',
    'get_or': 'slice_index or slice_index_or',
    'leb': 'nat_le',
    'ltb': 'nat_lt',
    'set': 'slice_set',
}
IMPORT = re.compile(r'^(?:pub )?use (.*?)(?: as \w+)?$', re.M)
# What an import names in the end, not the modules on the way.
LAST = re.compile(r'(?<=[{. ])[^\s{}.,]+(?=[,}]|$)')
COMMENT = re.compile(r'(?<!\S)--.*')
WORDS = r'(?:(?:abbrev|pub|unfoldable|block|record|data|module)\s+)*'
# A signature, or the head of a record or of other data, at the left edge or in a module.
DEFINED = re.compile(rf'^(?:  )?{WORDS}([^\s(){{}}\[\],;.:«»◌]+)(?= :\s| [({{])', re.M)
NO_NAMES = {'use', 'mod', 'module', 'open', 'where', 'pub', 'abbrev', '_'}


def names(text):
    """The names that a file defines, but for fields, constructors and what stands deeper."""
    inside, found = False, set()
    for line in COMMENT.sub('', text).split('\n'):
        if line and not line.startswith(' '):
            inside = line.startswith(('module', 'pub module'))
        if inside or not line.startswith(' '):
            found |= {name for name in DEFINED.findall(line) if name not in NO_NAMES}
    return found


def files_by_name():
    """For each name the crates and files that define it."""
    found = defaultdict(list)
    for path in sorted(TOP.glob('crates/*/specs/**/*.antt')):
        crate = path.relative_to(TOP / 'crates').parts[0]
        for name in names(path.read_text(encoding='utf-8')):
            found[name].append((crate, path.relative_to(TOP / 'crates').as_posix()))
    return found


def other_words():
    """The files of definitions and proofs, each with what it imports under the kit's other name."""
    found = {}
    for path in sorted(TOP.glob('crates/*/specs/**/*.antt')) + sorted(TOP.glob('crates/*/proofs/**/*.antt')):
        imported = IMPORT.findall(path.read_text(encoding='utf-8'))
        names = {name for line in imported for name in LAST.findall(line)}
        found[path.relative_to(TOP / 'crates').as_posix()] = sorted(names & set(OTHERS))
    return found


def name_faults(found):
    """What is wrong with the names that the files define."""
    for name, places in sorted(found.items()):
        crates = tuple(crate for crate, _ in places)
        if name in SHARED and crates != MEMORIES:
            yield f'{name}: shared by the two memories, but it stands in ' + ', '.join(file for _, file in places)
        elif name not in SHARED and len(places) > 1:
            yield f'{name}: stands in ' + ', '.join(file for _, file in places)
    for name in sorted(SHARED - set(found)):
        yield f'{name}: shared by the two memories, but it stands nowhere'


def word_faults(words):
    """The files that import a word which the definitions don't use."""
    for file, names in words.items():
        if names:
            yield f'{file}: imports ' + ', '.join(f'{name} (say {OTHERS[name]})' for name in names)


def main():
    found, words = files_by_name(), other_words()
    faults = [*name_faults(found), *word_faults(words)]
    checked = len(set(found) | SHARED) + len(words)
    print('\n'.join(faults + [f'{checked - len(faults)} passed, {len(faults)} failed']))
    return bool(faults) or not found or not words


if __name__ == '__main__':
    sys.exit(main())
