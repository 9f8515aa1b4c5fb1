#!/usr/bin/env python3
"""Compares each example in Rust and in C of README.md and docs/ with the test that runs it.

A block begins with the line ```rust or ```c, and the line before names the test's file, which is one of a crate or of
the bindings: <!-- runs in FILE -->. The lines of the block are in that file one after the other, all moved to the
right by as much, or after the marks of a comment that is tested as an example. The programs of docs/start.md are run
by tests/start.py. The last line that is printed is 'N passed, M failed'.
"""
import re
import sys
from pathlib import Path

TOP = Path(__file__).resolve().parent.parent
NAMED = re.compile(r'<!-- runs in ((?:crates|bindings)/\S+\.(?:rt|rs|c)) -->')
# The programs of this page are run as they are.
START, STARTED = TOP / 'docs' / 'start.md', '<!-- run by tests/start.py -->'
# What says that a file is one of tests, by its ending.
TESTS = {'.rt': '#[test]', '.rs': '//! ```', '.c': 'int main('}


def examples(document):
    """Each block of the document: its first line's number, the line before it, and its lines."""
    lines = document.read_text(encoding='utf-8').split('\n')
    starts = [number for number, line in enumerate(lines) if line in ('```rust', '```c')]
    for start in starts:
        end = lines.index('```', start)
        yield start + 1, lines[start - 1], lines[start + 1:end]


def stands_in(block, lines):
    """Whether the block's lines stand one after the other among these, moved to the right by as much."""
    for start in range(len(lines) - len(block) + 1):
        if not lines[start].endswith(block[0]):
            continue
        moved = lines[start][:len(lines[start]) - len(block[0])]
        if moved.strip() in ('', '//!') and all(
                line == (moved + wanted).rstrip() for line, wanted in zip(lines[start:], block)):
            return True
    return False


def fault(document, before, block):
    """What is wrong with a block, if anything is."""
    if before == STARTED:
        return None if document == START else f'tests/start.py runs no program of {document.name}'
    named = NAMED.fullmatch(before)
    if not named:
        return 'no line before it says where it runs'
    test = TOP / named[1]
    if not test.is_file():
        return f'{named[1]} is not there'
    text = test.read_text(encoding='utf-8')
    if TESTS[test.suffix] not in text:
        return f'{named[1]} has no tests'
    if not block or not stands_in(block, text.split('\n')):
        return f'it does not stand in {named[1]}'
    return None


def main():
    passed = failed = 0
    for document in [TOP / 'README.md', *sorted((TOP / 'docs').rglob('*.md'))]:
        for number, before, block in examples(document):
            wrong = fault(document, before, block)
            if wrong is None:
                passed += 1
            else:
                failed += 1
                print(f'{document.relative_to(TOP)}:{number}: {wrong}')
    if passed + failed == 0:
        failed = 1
        print('there is no example')
    print(f'{passed} passed, {failed} failed')
    return failed != 0


if __name__ == '__main__':
    sys.exit(main())
