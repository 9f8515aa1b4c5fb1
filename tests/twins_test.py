#!/usr/bin/env python3
"""Tests how tests/twins.py reads a twin, and how it judges what a check of the crate above says.

The texts are those of the prover; long ones are cut. The last line is 'N passed, M failed'.
"""
import sys
import tempfile
from pathlib import Path

sys.path.insert(0, str(Path(__file__).resolve().parent))
import edits  # noqa: E402
import twins  # noqa: E402

LACKING_A_FACT = '''\
./proofs/Scans.antt:216:65: error: `third`: expected type `a && b ≡ true`, but this has type `a ≡ true`
./proofs/Other.antt:4:5: error: 1 declaration that depends on `third`, which was not admitted, was not checked: rest
'''
LACKING_A_NAME = './proofs/Scans.antt:28:44: error: module `Rattle.low.proofs` has no `Traces` that can be named from here\n'
ELSEWHERE = './proofs/Other.antt:3:1: error: `other`: expected type `a ≡ true`, but this has type `b ≡ true`\n'
# What is said in place of the lacking fact, and the reason that is given.
NOT_REFUSED = {
    'a proof that lacks a name': (LACKING_A_NAME, 'names what is gone, or is none'),
    'a field that is gone': (
        './proofs/Scans.antt:23:73: error: `third`: record `Pair` has no field `sinc` — the fields\n'
        '  that can be named here are `at`, `since`\n', 'names what is gone, or is none'),
    'a text that cannot be read': ('./proofs/Scans.antt:18:8: error: `abbrev` is written once\n', 'names what is gone, or is none'),
    'a run out of steps': (
        './proofs/Scans.antt:4:20: error: `third`: antt ran out of the steps that it may take\n', 'a run out of steps'),
    'another file': (ELSEWHERE, 'is not refused, but proofs/Other.antt'),
    'code that is refused': (
        './src/a.rt:3:1: error: expected `;`\n', 'is not refused, but src/a.rt'),
    'no error': ('fn high::f: not proved\n', 'no file'),
}
LINES = 'refused: high proofs/Scans.antt\nfile: a\nold: one\\ntwo\nnew: \nabove: b\nold: x\nnew: y\nremove: c\n'
# Texts that are no twin: of no crate above, of no change, with a line of another word.
BAD = ('file: a\nold: one\nnew: two\n', 'refused: high proofs/Scans.antt\n', LINES + 'other: text\n')


def cases():
    """The name of each case, and whether it holds."""
    twin = twins.Twin('turned', 'high', 'proofs/Scans.antt')
    yield 'a proof that lacks a fact refuses', twins.why_not(twin, 1, LACKING_A_FACT) is None
    for status in (0, 2, -9):
        yield f'a check that ends with {status} refuses nothing', 'ended' in (twins.why_not(twin, status, LACKING_A_FACT) or '')
    for what, (said, reason) in NOT_REFUSED.items():
        yield f'{what} refuses nothing', reason in (twins.why_not(twin, 1, said) or '')
        beside = twins.why_not(twin, 1, LACKING_A_FACT + said)
        yield f'nor beside a proof that lacks a fact, if it is an error: {what}', (beside is None) == (what == 'no error')
    yield 'nor does a proof that lacks a fact where a function has no verdict', 'no verdict: high::f' in (
        twins.why_not(twin, 1, LACKING_A_FACT + 'fn high::f: could not tell\n') or '')
    with tempfile.TemporaryDirectory() as there:
        path = Path(there) / 'named.twin'
        path.write_text(LINES, encoding='utf-8')
        read = twins.read_twin(path)
        yield 'a twin is read', (read.above, read.removed, read.changes, read.changes_above) == (
            'high', ['c'], [('a', 'one\ntwo', '')], [('b', 'x', 'y')])
        for text in BAD:
            path.write_text(text, encoding='utf-8')
            yield f'no twin: {text.splitlines()[-1]}', refused(twins.read_twin, path)
        for text, well in (('one', True), ('one one', False), ('two', False)):
            (Path(there) / 'a').write_text(text, encoding='utf-8')
            yield f'an old text in {text}', well != refused(twins.turn, Path(there), (), [('a', 'one', 'two')])
        yield 'what is not there is not removed', refused(twins.turn, Path(there), ['c'], ())
    edits.PAUSE = 0
    yield 'a library that is being made anew is waited for', twins.are_taken(Late(2), ['low'])
    yield 'but not for ever', not twins.are_taken(Late(twins.TRIES), ['low'])


class Late:
    """Libraries that are there after so many questions."""

    def __init__(self, questions):
        self.questions = questions

    def has(self, names):
        """Whether they are there."""
        self.questions -= 1
        return self.questions < 0 and names == ['low']


def refused(call, *given):
    """Whether a call says that a twin is bad."""
    try:
        call(*given)
    except edits.BadEdit:
        return True
    return False


def main():
    results = list(cases())
    failed = [name for name, holds in results if not holds]
    for name in failed:
        print(f'failed: {name}')
    print(f'{len(results) - len(failed)} passed, {len(failed)} failed')
    return bool(failed)


if __name__ == '__main__':
    sys.exit(main())
