#!/usr/bin/env python3
"""Sees what the program says of long work: on the standard error of a terminal, and nowhere else; and that what the
pipeline draws fits its terminal.

Its words are the program and the pipeline. The program is given a plan on standard input, at once or after 1.3 seconds:
the time until the plan is there doesn't count. The work on the long plans takes more than a second. The last line is
'N passed, M failed'.
"""
import os
import pty
import re
import subprocess
import sys
import time

PLAN = b'sizes 2 4 8 64\ninitial 10 20\nport read 0\nsteps rest\n'
LINE = b'partial: at work for 1 s\r\n'


def walk(scans, updates):
    """A plan whose updates walk the slots that its scans have left."""
    calls = b'; '.join([b'scan 0'] * scans + [b'update 0 1'] * updates)
    return b'sizes 1 65536 0 4194304\ninitial 0\nport ' + calls + b'\nsteps rest\n'


def read_all(reader):
    """What can be read until nobody writes any more, which a terminal says by a fault."""
    text = b''
    try:
        while part := os.read(reader, 4096):
            text += part
    except OSError:
        pass
    os.close(reader)
    return text


def said(program, verb, plan, seconds, is_terminal):
    """What the program writes to standard error, with a plan that comes after so many seconds; None if it fails."""
    reader, writer = pty.openpty() if is_terminal else os.pipe()
    with subprocess.Popen([program, verb], stdin=subprocess.PIPE, stdout=subprocess.PIPE, stderr=writer) as started:
        time.sleep(seconds)
        out, _ = started.communicate(plan, timeout=120)
    os.close(writer)
    text = read_all(reader)
    return text if started.returncode == 0 and out else None


def bars(pipeline, lines, columns):
    """What the pipeline draws on a terminal of this size, up to the line of its end; None if it fails."""
    reader, writer = pty.openpty()
    words = [pipeline, '--stages', '12', '--items', '3000', '--looks', '50']
    with subprocess.Popen(words, stdin=subprocess.DEVNULL, stdout=writer,
                          env=os.environ | {'LINES': str(lines), 'COLUMNS': str(columns)}) as started:
        os.close(writer)
        text = read_all(reader).decode()
    drawn, found, _ = text.partition('last ')
    return drawn if started.returncode == 0 and found else None


def keeps(drawn, lines, columns):
    """Whether this was drawn in so many lines and columns: no line is wider, and none above is drawn anew."""
    heights = [int(height) for height in re.findall(r'\x1b\[(\d+)A', drawn)]
    widths = [len(re.sub(r'\x1b\[\d+[AK]', '', line)) for line in drawn.split('\r\n')]
    return bool(heights) and max(heights) < lines and max(widths) < columns


def main():
    failed, cases = 0, 0
    for verb in ('replay', 'check', 'run'):
        long = walk(40000, 8000 if verb == 'run' else 3600)
        for plan, seconds, is_terminal in ((PLAN, 1.3, True), (long, 0, True), (long, 0, False)):
            given = said(sys.argv[1], verb, plan, seconds, is_terminal)
            is_shown = is_terminal and plan is long
            cases += 1
            if given is None or (not given.startswith(LINE) if is_shown else given):
                failed += 1
                print(f'failed: {verb}, {len(plan)} bytes after {seconds} s, terminal {is_terminal}: {given}')
    for lines, columns in ((10, 40), (24, 80), (3, 30)):
        drawn = bars(sys.argv[2], lines, columns)
        cases += 1
        if drawn is None or not keeps(drawn, lines, columns):
            failed += 1
            print(f'failed: the bars in {lines} lines of {columns}: {drawn}')
    cases += 1
    if '\x1b' in (bars(sys.argv[2], 24, 17) or '\x1b'):
        failed += 1
        print('failed: bars where there is no room for one')
    print(f'{cases - failed} passed, {failed} failed')
    return 1 if failed else 0


if __name__ == '__main__':
    sys.exit(main())
