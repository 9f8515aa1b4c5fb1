#!/usr/bin/env python3
"""Proves a crate from nothing, over the libraries in out/, with its tests if it has some, and prints the modules that took
longest, with their seconds.

A module is one part of a function's proof: `Lts` is slow where a function owns much at its ends, `Proof` where a goal is
searched for that has no answer, and `Answers` where a written answer is slow. The times are those between the files that
the prover writes as it goes, so nothing else should run beside it. Words: the crate's name, and how many modules.
"""
import os
import subprocess
import sys
import tempfile
from pathlib import Path

sys.path.insert(0, str(Path(__file__).resolve().parent.parent / 'tests'))
import edits  # noqa: E402

ENDING = '.oantt'


def times_in(folder):
    """The modules whose files stand in this folder, each with the seconds since the one before it was written."""
    files = sorted((it.stat().st_mtime, it.name) for it in folder.glob(f'*/*{ENDING}'))
    return [(here - before, name.removesuffix(ENDING)) for (before, _), (here, name) in zip(files, files[1:])]


def has_tests(crate):
    """Whether the crate in this folder has tests."""
    return any('#[test]' in it.read_text(encoding='utf-8') for it in (crate / 'src').glob('**/*.rt'))


def main():
    name, many = sys.argv[1], int(sys.argv[2]) if len(sys.argv) > 2 else 30
    crates = edits.crates_of(edits.TOP)
    lacking = [it for it in edits.below(name, crates) if not edits.library_of(it).exists()]
    if lacking:
        sys.exit(f'{lacking[0]} is not proved: rt check')
    with tempfile.TemporaryDirectory() as room:
        for it in edits.below(name, crates):
            os.symlink(edits.library_of(it).parent, f'{room}/{it}')
        kept = Path(room, 'kept')
        kept.mkdir()
        command = [str(kept) if it == 'kept' else it for it in edits.command_of(name, crates, room)]
        root = 'src/lib.rt' if (edits.TOP / 'crates' / name / 'src/lib.rt').exists() else 'src/main.rt'
        command = [root if it == 'src/lib.rt' else it for it in command] + ['--test'] * has_tests(edits.TOP / 'crates' / name)
        status = subprocess.run(command, cwd=edits.TOP / 'crates' / name, stdin=subprocess.DEVNULL).returncode
        found = sorted(times_in(kept), reverse=True)
    for seconds, module in found[:many]:
        print(f'{seconds:7.1f}  {module}')
    return status


if __name__ == '__main__':
    sys.exit(main())
