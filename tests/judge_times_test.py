#!/usr/bin/env python3
"""Tests the judge of calls with times: histories worked out by hand, and random tiny ones against a judge that tries
every row. The last line is 'N passed, M failed'. A number as its one word seeds the random tests.
"""
import contextlib
import io
import itertools
import random
import sys

sys.dont_write_bytecode = True
import judge_times
from judge_times import Unlawful, Unreadable

# ---- Histories worked out by hand: their calls, and whether they are linearizable

BY_HAND = [
    ('no call', '', True),
    ('a write and a read after it', '0 1 2 update 0 1|1 3 4 read 0 1', True),
    ('a read misses a write that has ended', '0 1 2 update 0 1|1 3 4 read 0 0', False),
    ('a read beside a write may miss it', '0 1 3 update 0 1|1 2 4 read 0 0', True),
    ('a read beside a write may see it', '0 1 3 update 0 1|1 2 4 read 0 1', True),
    ('a read sees a write that has not begun', '0 1 2 read 0 1|1 3 4 update 0 1', False),
    ('calls that meet in one time are side by side', '0 1 3 update 0 1|1 3 4 read 0 0', True),
    ('reads of two threads fall', '0 1 9 update 0 1|1 2 3 read 0 1|2 4 5 read 0 0', False),
    ('reads of two threads side by side', '0 1 9 update 0 1|1 2 4 read 0 1|2 3 5 read 0 0', True),
    ('a scan of one moment', '0 1 2 update 0 1|0 3 9 update 1 1|1 4 5 scan 0:1 1:0|2 6 7 scan 0:1 1:1', True),
    ('a scan of two moments', '0 1 2 update 0 1|0 3 4 update 1 1|1 1 9 scan 0:0 1:1', False),
    ('two scans that see two writers in two orders',
     '0 1 9 update 0 1|1 1 9 update 1 1|2 2 3 scan 0:1 1:0|3 2 3 scan 0:0 1:1', False),
    ('a component twice in a scan', '0 1 9 update 0 1|1 2 3 scan 0:1 0:1', True),
    ('a component twice with two values', '0 1 9 update 0 1|1 2 3 scan 0:1 0:0', False),
    ('a value that nobody wrote', '0 1 2 read 0 1', False),
    ('a value is skipped', '0 1 2 update 0 2', False),
    ('a value is set twice', '0 1 2 update 0 1|1 3 4 update 0 1', False),
    ('a thread makes two calls at once', '0 1 5 update 0 1|0 3 6 read 0 1', False),
]

UNREADABLE = ['call 0 1 2 update 0', 'call 0 1 2 stop 0 1', 'calls 0 1 2 read 0 1', 'call 0 2 1 read 0 1',
              'call 0 1 2 scan 0', 'call 0 1 2 read 0 x']

# Whole texts, with the status that the judge ends with: lawful, unlawful, unreadable, and those that show nothing.
TEXTS = [
    ('call 0 1 3 update 0 1\ncall 1 2 4 read 0 0\n', 0),
    ('call 0 1 3 update 0 1\ncall 1 3 4 read 0 1\n', 0),
    ('call 0 1 9 update 0 1\ncall 1 2 4 read 0 2\n', 1),
    ('call 0 1 3 update 0 1\nstop\n', 2),
    ('', 2),
    ('call 0 1 3 update 0 1\n', 2),
    ('call 0 1 3 update 0 1\ncall 1 4 5 read 0 1\ncall 0 6 7 read 0 1\n', 2),
]


def calls_of(text):
    return [judge_times.call_of(f'call {line}', count) for count, line in enumerate(text.split('|'), 1)] if text else []


def is_lawful(calls):
    try:
        judge_times.judge(calls)
    except Unlawful:
        return False
    return True


# ---- A judge that tries every row


def is_row(row):
    """Whether the calls can stand in this row."""
    values = {}
    for place, call in enumerate(row):
        if any(later.ended < call.began for later in row[place + 1:]):
            return False
        if call.wrote:
            component, value = call.wrote
            if values.get(component, 0) + 1 != value:
                return False
            values[component] = value
        if any(values.get(component, 0) != value for component, value in call.saw):
            return False
    return True


def random_history(source):
    """A few calls of three threads, with answers of which most are near the truth."""
    lines, ends, written = [], [0, 0, 0], [0, 0]
    for _ in range(source.randint(1, 6)):
        thread = source.randrange(3)
        began = ends[thread] + source.randint(1, 4)
        ends[thread] = began + source.randint(0, 5)
        kind = source.choice(('update', 'read', 'scan'))
        if kind == 'update' and thread < 2:
            written[thread] += 1
            text = f'update {thread} {written[thread]}'
        elif kind == 'scan':
            text = f'scan 0:{source.randint(0, written[0])} 1:{source.randint(0, written[1])}'
        else:
            component = source.randrange(2)
            text = f'read {component} {source.randint(0, written[component])}'
        lines.append(f'{thread} {began} {ends[thread]} {text}')
    return '|'.join(lines)


def main(words):
    source = random.Random(words[0] if words else 1)
    faults, lawful, tried = [], 0, 3000
    for name, text, right in BY_HAND:
        if is_lawful(calls_of(text)) != right:
            faults.append(name)
    for line in UNREADABLE:
        try:
            judge_times.call_of(line, 1)
            faults.append(line)
        except Unreadable:
            pass
    for text, status in TEXTS:
        with contextlib.redirect_stdout(io.StringIO()), contextlib.redirect_stderr(io.StringIO()):
            if judge_times.main(text) != status:
                faults.append(f'{text!r} does not end with {status}')
    for _ in range(tried):
        text = random_history(source)
        calls = calls_of(text)
        right = any(is_row(row) for row in itertools.permutations(calls))
        lawful += right
        if is_lawful(calls) != right:
            faults.append(text)
    if not tried / 10 < lawful < tried * 9 / 10:
        faults.append(f'{lawful} of {tried} random histories are linearizable')
    for fault in faults:
        print(f'failed: {fault}')
    count = len(BY_HAND) + len(UNREADABLE) + len(TEXTS) + tried + 1
    print(f'{count - len(faults)} passed, {len(faults)} failed')
    return 0 if not faults else 1


if __name__ == '__main__':
    sys.exit(main(sys.argv[1:]))
