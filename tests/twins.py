#!/usr/bin/env python3
"""Turns code and definition of a crate alike, by the twins of crates/NAME/twins/, and sees that a crate above refuses
what the turned one says.

A twin is a wrong algorithm that does what its definitions say. So the turned crate is proved, and its library is made.
It is the proof of the law in a crate above that has to fail over it. A twin is a file of lines: `refused: CRATE FILE`
names the crate above and its file of proofs that has to be refused; `remove: PATH` a file or folder of the turned crate
that goes; `file:`, `old:` and `new:` are those of an edit (tests/edits.py), but `\\n` in a text is the end of a line.
`above: PATH` is a file of the crate above that is turned too, to fit the turned definition: what its proof lacks then is
a fact, and not a form.

A twin is refused when the turned crate is proved, the check of the crate above ends with 1, and what it refuses there
is a declaration of that file, by its meaning (tests/definitions.py), and nothing of another file but what depends on
one that it refuses. A name that isn't found refuses nothing, nor does a text that can't be read, or a run out of steps.
The last line is 'N passed, M failed', where each twin counts once.
"""
import re
import shutil
import sys
import tempfile
import time
from dataclasses import dataclass, field
from pathlib import Path

import edits
from definitions import BEHIND, LACKING, OF_MEANING, SPENT
from edits import PARTS, TOP

# How often it is tried to copy the libraries, a second apart: what runs beside it may be making one anew.
TRIES = 600
# An error in a file, as the prover says it: the file, and why.
ERROR = re.compile(r'^\./(\S+?\.(?:antt|rt)):\d+:\d+: error: (.*(?:\n  .*)*)', re.M)
# What it says of a function of which it has no verdict.
NO_VERDICT = re.compile(rf'^fn (\S+: .*(?:{SPENT.pattern}).*)$', re.M)


@dataclass
class Twin:
    """A named change of a crate, and the crate above and its file of proofs that have to be refused."""

    name: str
    above: str = ''
    file: str = ''
    removed: list[str] = field(default_factory=list)
    changes: list[tuple[str, str, str]] = field(default_factory=list)
    changes_above: list[tuple[str, str, str]] = field(default_factory=list)


def read_twin(path):
    """The twin of a file, or a BadEdit that says what is wrong with it."""
    twin, file, old = Twin(path.stem), None, None
    changes = twin.changes
    for line in path.read_text(encoding='utf-8').splitlines():
        word, _, text = line.partition(':')
        text = text.removeprefix(' ').replace('\\n', '\n')
        if word == 'refused' and len(text.split()) == 2:
            twin.above, twin.file = text.split()
        elif word == 'remove':
            twin.removed.append(text)
        elif word in ('file', 'above'):
            file, changes = text, twin.changes if word == 'file' else twin.changes_above
        elif word == 'old':
            old = text
        elif word == 'new' and file and old:
            changes.append((file, old, text))
            old = None
        else:
            raise edits.BadEdit(f'its line is none of a twin: {line}')
    if not twin.above or not twin.changes:
        raise edits.BadEdit('it names no crate above, or changes nothing')
    return twin


def turn(room, removed, changes):
    """Turns the crate in this folder."""
    for path in removed:
        at = room / path
        if not at.exists():
            raise edits.BadEdit(f'it removes what is not there: {path}')
        shutil.rmtree(at) if at.is_dir() else at.unlink()
    for file, old, new in changes:
        text = (room / file).read_text(encoding='utf-8')
        if text.count(old) != 1 or old == new:
            raise edits.BadEdit(f'its old text stands {text.count(old)} times in {file}: {old}')
        (room / file).write_text(text.replace(old, new), encoding='utf-8')


def copied(name, room):
    """A copy of a crate's sources, with what its checks kept, in a new folder of the room."""
    at = room / name
    at.mkdir()
    for part in PARTS:
        if (TOP / 'crates' / name / part).is_dir():
            shutil.copytree(TOP / 'crates' / name / part, at / part)
    try:
        shutil.copytree(TOP / 'crates' / name / 'out' / 'incremental', at / 'kept')
    except (OSError, shutil.Error):
        # Nothing is kept, or not all is there while it is made anew. It serves speed alone.
        shutil.rmtree(at / 'kept', ignore_errors=True)
        (at / 'kept').mkdir()
    return at


def are_taken(libraries, names):
    """Whether these libraries are in the folder of copies, once none of them is being made anew."""
    for _ in range(TRIES):
        if libraries.has(names):
            return True
        time.sleep(edits.PAUSE)
    return False


def why_not(twin, status, said):
    """Why what a check of the crate above says does not refuse a twin, or None."""
    if status != 1:
        return f'the check of {twin.above} ended with {status}' + ''.join(f'\n    {it}' for it in said.splitlines()[-3:])
    errors = [(file, why) for file, why in ERROR.findall(said) if not BEHIND.match(why)]
    files = sorted({file for file, _ in errors})
    if twin.file not in files:
        return f'{twin.file} of {twin.above} is not refused, but {", ".join(files) or "no file"}'
    for file, why in errors:
        first = f'{file}: {why.splitlines()[0]}'
        if file != twin.file:
            return f'the twin does not name what is refused too: {first}'
        if LACKING.search(why) or not OF_MEANING.match(why):
            return f'a proof names what is gone, or is none: {first}'
        if SPENT.search(why):
            return f'a run out of steps: {first}'
    spent = NO_VERDICT.search(said)
    return f'no verdict: {spent[1]}' if spent else None


def try_twin(name, path, crates, libraries):
    """Why a twin is not refused over copies of these libraries, or None."""
    with tempfile.TemporaryDirectory(prefix='twin-') as there:
        room, proved = Path(there), Path(there) / 'proved'
        try:
            twin = read_twin(path)
            at, above = copied(name, room), copied(twin.above, room)
            turn(at, twin.removed, twin.changes)
            turn(above, (), twin.changes_above)
        except edits.BadEdit as bad:
            return f'bad twin: {bad}'
        others = [it for it in edits.below(twin.above, crates) if it != name]
        if not are_taken(libraries, others):
            return f'a crate below {twin.above} is not proved'
        for library in others:
            shutil.copytree(libraries.folder / library, proved / library)
        (proved / name).mkdir(parents=True)
        build = edits.command_of(name, crates, proved)
        build[1:2] = ['build', '--links', f'{name}=', '-o', f'{proved}/{name}/{name}.rlib']
        status, said = edits.run(build, at, edits.LIMIT)
        if status != 0:
            return f'the turned crate is not built: {status}' + ''.join(f'\n    {it}' for it in said.splitlines()[-3:])
        return why_not(twin, *edits.run(edits.command_of(twin.above, crates, proved), above, edits.LIMIT))


def main():
    crates = edits.crates_of(TOP)
    passed = failed = 0
    with tempfile.TemporaryDirectory(prefix='proved-') as there:
        libraries = edits.Libraries(Path(there))
        for name in crates:
            for path in sorted((TOP / 'crates' / name / 'twins').glob('*')):
                why = try_twin(name, path, crates, libraries)
                passed, failed = passed + (why is None), failed + (why is not None)
                print(f'{name}/{path.name}: ' + ('refused' if why is None else why), flush=True)
    print(f'{passed} passed, {failed} failed')
    return 1 if failed or not passed else 0


if __name__ == '__main__':
    sys.exit(main())
