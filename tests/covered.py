#!/usr/bin/env python3
"""Sees that each public function and each law of the crates with edits is named by an edit of crates/NAME/edits.txt.

Public is what another crate or a C program can name: a function `pub fn` of a public module, or of a type or by a name that
src/lib.rt passes on, and an export. One that promises nothing can have no edit, and neither can those that WITHOUT lists
with the reason. A law is a function without code. The last line is 'N passed, M failed', one for each public function and
law, and one for each name of WITHOUT that is no such function.
"""
import re
import sys
from pathlib import Path

sys.path.insert(0, str(Path(__file__).resolve().parent))
import edits  # noqa: E402
from bodies import functions_of  # noqa: E402
from definitions import LAW  # noqa: E402

# Public functions and laws that have no edit, and why.
BY_HAND = 'its proof is written by hand, with no goal that an edit can name'
WITHOUT = {
    'partial_door': {'Handle::held': BY_HAND, 'Parts::of': BY_HAND, 'Parts::into_box': BY_HAND},
    'partial_epochs': {'law::seen_records_stay': 'the one that it had was shown to be equal to the right one, and no other was tried yet'},
    'partial_table': {
        'Badge::blank': 'it has no other badge to give', 'Badge::into_seat': 'it has no other seat to give',
        'Table::close_with': 'it has no other closed table to give',
    },
    'partial_text': {'Device::into_inner': 'it has no other value of any type to give'},
}
# What a crate's root or a module offers, and the head of a public function.
PUBLIC_MODULE = re.compile(r'^pub mod (\w+)', re.M)
PASSED_ON = re.compile(r'^pub use ([^;]*);', re.M)
PUBLIC = re.compile(r' *pub (?:const )?(?:unsafe )?(extern "C" )?fn ')


def is_public(module, crate):
    """Whether a module of the crate is one that others can name, by the names of the modules around it and its own."""
    file = crate / 'src/lib.rt'
    for number, name in enumerate(module):
        if name not in PUBLIC_MODULE.findall(file.read_text(encoding='utf-8')):
            return False
        file = crate / 'src' / ('/'.join(module[:number + 1]) + '.rt')
    return True


def public_functions(crate):
    """The public functions of the crate in this folder with bodies that promise something."""
    root = (crate / 'src/lib.rt').read_text(encoding='utf-8')
    passed_on = {name for line in PASSED_ON.findall(root) for name in re.findall(r'\w+(?!\w|::)', line)}
    for path in sorted((crate / 'src').glob('**/*.rt')):
        text, file = path.read_text(encoding='utf-8'), path.relative_to(crate)
        module = [] if path.name == 'lib.rt' else [*file.parts[1:-1], path.stem]
        for it in functions_of(str(file), text):
            head = text[it.head:it.begin]
            found = PUBLIC.match(head)
            if found and 'ensures' in head and (found[1] or it.names[0] in passed_on or is_public(module, crate)):
                yield it


def laws(crate):
    """The paths of the laws of the crate in this folder."""
    for path in sorted((crate / 'src').glob('**/*.rt')):
        for found in LAW.finditer(path.read_text(encoding='utf-8')):
            yield f'{path.stem}::{found[1]}'


def uncovered(crate, without):
    """What has an edit or none of the crate in this folder: for each public function and law what is wrong, or None."""
    refused = {path for it in edits.edits_of(crate)[0] for path in it.refused}
    paths = [it.split('::') for it in refused]
    left = set(without)
    for it in public_functions(crate):
        name = '::'.join(it.names)
        has_one = any(it.is_at(path) for path in paths)
        if name in without:
            left.discard(name)
            yield f'{crate.name}: {name} has an edit, and {Path(__file__).name} says that it can have none' if has_one else None
        else:
            yield None if has_one else f'{crate.name}: no edit names {name} of {it.file}'
    for it in laws(crate):
        left.discard(it)
        yield None if it in refused or it in without else f'{crate.name}: no edit names {it}'
    for name in sorted(left):
        yield f'{crate.name}: there is no public function {name}'


def main():
    found = []
    for name in edits.crates_of(edits.TOP):
        crate = edits.TOP / 'crates' / name
        if (crate / edits.EDITS).is_file():
            found += uncovered(crate, WITHOUT.get(name, {}))
    faults = [it for it in found if it]
    print('\n'.join([*faults, f'{found.count(None)} passed, {len(faults)} failed']))
    return bool(faults) or not found


if __name__ == '__main__':
    sys.exit(main())
