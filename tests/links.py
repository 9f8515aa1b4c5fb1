#!/usr/bin/env python3
"""Follows each link of the documents: the file is there, and so is the heading that it names.

It takes all Markdown files that are kept, and the links to pages that comments of the headers, the crate for Rust
and the crates name as `docs/PAGE.md`. Each page of docs/ is linked from README.md. The last line is
'N passed, M failed'; a web address counts for nothing.
"""
import re
import subprocess
import sys
from pathlib import Path

TOP = Path(__file__).resolve().parent.parent
LINK = re.compile(r'\[[^\]]*\]\(([^)\s]+)\)')
NAMED = re.compile(r'\bdocs/[\w/-]+\.md\b')


def kept(*patterns):
    """The files of these patterns that are kept, or would be."""
    found = subprocess.run(['git', 'ls-files', '--cached', '--others', '--exclude-standard', *patterns],
                           cwd=TOP, capture_output=True, text=True, check=True)
    return [TOP / name for name in found.stdout.split('\n') if name and (TOP / name).is_file()]


def prose(path):
    """The lines of a page, without those of its blocks of code."""
    inside = False
    for number, line in enumerate(path.read_text(encoding='utf-8').split('\n'), 1):
        if line.startswith('```'):
            inside = not inside
        elif not inside and not line.startswith('    '):
            yield number, line


def anchors(path):
    """The names of a page's headings, as the web pages of a repository give them."""
    found = []
    for _, line in prose(path):
        if line.startswith('#'):
            name = re.sub(r'[^\w\- ]', '', line.lstrip('#').strip().lower()).replace(' ', '-')
            found.append(name if name not in found else f'{name}-{found.count(name)}')
    return found


def fault(page, link):
    """What is wrong with a link of this page, if anything is."""
    name, _, anchor = link.partition('#')
    # What stands before the tables of docs/benches.md becomes a part of that page.
    folder = TOP / 'docs' if page == TOP / 'benches' / 'head.md' else page.parent
    path = (folder / name).resolve() if name else page
    if not path.exists():
        return 'is not there'
    if anchor and (path.suffix != '.md' or anchor not in anchors(path)):
        return 'has no such heading'
    return None


def links(page):
    """The links of a page with their lines, but for web addresses."""
    for number, line in prose(page):
        for link in LINK.findall(line):
            if '://' not in link:
                yield number, link


def main():
    passed, faults = 0, []
    pages = kept('*.md')
    for page in pages:
        for number, link in links(page):
            wrong = fault(page, link)
            passed += wrong is None
            if wrong:
                faults.append(f'{page.relative_to(TOP)}:{number}: {link} {wrong}')
    for source in kept('*.h', '*.rs', '*.rt', '*.sh', '*.py'):
        for name in NAMED.findall(source.read_text(encoding='utf-8')):
            if (TOP / name).is_file():
                passed += 1
            elif name != 'docs/PAGE.md':
                faults.append(f'{source.relative_to(TOP)}: {name} is not there')
    front = {(TOP / link.partition('#')[0]).resolve() for _, link in links(TOP / 'README.md')}
    for page in pages:
        if page.is_relative_to(TOP / 'docs') and not page.is_relative_to(TOP / 'docs' / 'decisions'):
            passed += page in front
            if page not in front:
                faults.append(f'README.md has no link to {page.relative_to(TOP)}')
    if passed == 0 and not faults:
        faults.append('there is no link')
    print('\n'.join(faults + [f'{passed} passed, {len(faults)} failed']))
    return bool(faults)


if __name__ == '__main__':
    sys.exit(main())
