#!/usr/bin/env python3
"""Compares the table of laws in docs/reference/laws.md with the comments of the laws in crates/NAME/src/law.rt.

The table is between the lines <!-- laws --> and <!-- end -->: a part for each crate, in the order of crates.txt,
and a row for each law, with its comment. Each law has a comment and a contract, and each crate that has laws is in
crates.txt. With --write the table is written anew. The last line is 'N passed, M failed', one for each law.
"""
import re
import sys
from pathlib import Path

TOP = Path(__file__).resolve().parent.parent
PAGE = TOP / 'docs' / 'reference' / 'laws.md'
TABLE = re.compile(r'(<!-- laws -->\n).*?(<!-- end -->\n)', re.S)
LAW = re.compile(r'((?:^///[^\n]*\n)*)^pub fn (\w+)\(\)\n((?:.*\n)*?)\{\}$', re.M)


def laws(source):
    """The laws of a file: their names, comments and contracts."""
    for comment, name, contract in LAW.findall(source.read_text(encoding='utf-8')):
        words = ' '.join(line[3:].strip() for line in comment.splitlines())
        yield name, re.sub(r'\[`(?:crate::)?([^`]*)`\]', r'`\1`', words), contract


def table():
    """The table of all laws, and what is wrong with any of them."""
    lines, faults, count, seen = [], [], 0, set()
    named = (TOP / 'crates.txt').read_text(encoding='utf-8').splitlines()
    crates = [line.partition(':')[0].split()[0] for line in named if line and not line.startswith('#')]
    for crate in crates:
        source = TOP / 'crates' / crate / 'src' / 'law.rt'
        if not source.is_file():
            continue
        seen.add(source)
        lines += [f'### Laws of `{crate}`', '', '| Law | What it says |', '|---|---|']
        functions = source.read_text(encoding='utf-8').count('\npub fn ')
        found = list(laws(source))
        if functions != len(found):
            faults.append(f'{crate}: {functions} functions, and {len(found)} laws')
        for name, words, contract in found:
            count += 1
            if not words or 'ensures' not in contract:
                faults.append(f'{crate}: {name} has no comment or no contract')
            escaped = words.replace('|', '\\|')
            lines.append(f'| `{name}` | {escaped} |')
        lines.append('')
    for source in set((TOP / 'crates').glob('*/src/law.rt')) - seen:
        faults.append(f'{source.relative_to(TOP)} is of no crate in crates.txt')
    return '\n'.join([''] + lines), count, faults


def main(words):
    text, count, faults = table()
    page = PAGE.read_text(encoding='utf-8')
    if len(TABLE.findall(page)) != 1:
        faults.append('docs/reference/laws.md has no one place for the table of laws')
    fresh = TABLE.sub(lambda found: found[1] + text + found[2], page)
    if words == ['--write']:
        PAGE.write_text(fresh, encoding='utf-8')
    elif fresh != page:
        faults.append('the table of laws in docs/reference/laws.md is not that of the comments: tests/laws.py --write')
    if count == 0:
        faults.append('there is no law')
    print('\n'.join(faults + [f'{max(count - len(faults), 0)} passed, {len(faults)} failed']))
    return bool(faults)


if __name__ == '__main__':
    sys.exit(main(sys.argv[1:]))
