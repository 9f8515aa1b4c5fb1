#!/usr/bin/env python3
"""Compares the figures in the documents with what is counted.

A figure is between <!--=NAME--> and <!--=-->. NAME is `tests`, the functions of the crates marked as tests; `edits`,
the edits that the prover has to refuse, and `edits.CRATE`, those of a crate; `wrong`, the wrong bodies and definitions
in them, one for each function or law that has to refuse it; `plans`, the files plans/*.plan; `believed`, what
tests/believed.py finds of the calls of a single opening, or `believed.long_lived` of those of the long-lived memory;
`helped.N`, the most components of a long-lived memory with N ports in which scans announce themselves, `pool.N` or
`pool.N.M` the pool words of its arenas with 8 or M components, `megabytes.N` or `megabytes.N.M` what it takes, and
`claims.N` of how many updates one claims, all at the usual sizes; `limit.NAME` the limit of that name in `specs/`;
`steps.SIZE.CALL` a number of the law `most_steps_in_numbers`; or `version`, that of the crate for Rust. The rows of
README.md's table of speed are those of docs/benches.md, which begins with benches/head.md, and the number of measurements
is that of the benches. README.md has at most 150 lines, and CONTRIBUTING.md and the page on architecture name each crate.
With --write the figures are written anew. The last line is 'N passed, M failed', one for each figure, row and name.
"""
import re
import sys
from pathlib import Path

sys.dont_write_bytecode = True
import believed
import links
import version

TOP = Path(__file__).resolve().parent.parent
FIGURE = re.compile(r'(<!--=([\w.]+)-->)([^<]*)(<!--=-->)')
# The definitions that name limits.
LIMITS = 'partial_long_lived/specs/Options.antt', 'partial_words/specs/Layout.antt'
# The list words of an arena, by default (`Options::default`).
LIST_WORDS = 1_024
# The most components of a memory.
MOST_COMPONENTS = 65_536


def tests():
    return sum(len(re.findall(r'^\s*#\[test\]$', path.read_text(encoding='utf-8'), re.M))
               for path in (TOP / 'crates').glob('*/src/**/*.rt'))


def edits(crate='*', word='edit'):
    return sum(len(re.findall(rf'^{word}: ', path.read_text(encoding='utf-8'), re.M))
               for path in (TOP / 'crates').glob(f'{crate}/edits.txt'))


def option(name):
    """A limit on the arenas of a long-lived memory, or on every memory; None where there is none of this name."""
    texts = ((TOP / 'crates' / it).read_text(encoding='utf-8') for it in LIMITS)
    found = re.search(rf'^{name} = (\d+)$', '\n'.join(texts), re.M)
    return found and int(found[1])


def helped(ports):
    """The most components with which scans announce themselves (`announces_for`)."""
    return min(option('most_helped') // ports, MOST_COMPONENTS)


def room(ports, m):
    """The pool words of an arena for the greatest claim of each port (`claim_room`): a record, and the words ahead."""
    return ((4 + 2 * m if m <= helped(ports) else 3) + option('most_ahead')) * ports


def pool(ports, m=8):
    """The usual pool of an arena (`usual_pool`)."""
    most = max(min(option('pool_of_port') * ports, option('pool_of_all') // ports),
               min(option('pool_of_component') * m, option('pool_of_components') // ports))
    return max(min(most, option('most_pool') - 3 * m - room(ports, m)), option('fewest_pool'))


def claims(ports):
    """Of how many updates one claims words when nobody scans: it claims ahead those of so many more (`ahead_for`)."""
    return 1 + min(pool(ports) // 8 // ports, option('most_ahead')) // 3


def slots(ports, m):
    """The slots of an arena (`least_slots`, `spare_slots`)."""
    rest = 5 * m + 3 + LIST_WORDS + pool(ports, m) + room(ports, m)
    least = (pool(ports, m) // 8 if m <= helped(ports) else 0) + ports
    return min(least + 15 - (rest + least) % 16, option('most_slots'))


def megabytes(ports, m=8):
    """What a memory of the usual sizes takes, in MB: the words of its epochs, ports and arenas."""
    arena = 5 * m + 4 + LIST_WORDS + pool(ports, m) + room(ports, m) + slots(ports, m)
    control = 1 + 3 * ports
    taken = 8 * (control + 15 - (control + 3 + m) % 16 + 2 * ports * arena) / 10 ** 6
    return f'{taken:.1f}' if taken < 10 else f'{taken:,.0f}'


def steps(size, call):
    """How many steps a call makes at most in a memory of that size, by the law of these numbers; None where it has none."""
    text = (TOP / 'crates' / 'partial_long_lived' / 'specs' / 'StepNumbers.antt').read_text(encoding='utf-8')
    found = re.search(rf'^{size}_components = record {{.*\b{call} = (\d+)\b', text, re.M)
    return f'{int(found[1]):,}' if found else None


def figure(name):
    """The figure of this name, or None where there is none of it."""
    kind, _, part = name.partition('.')
    plain = {'tests': tests, 'edits': edits, 'wrong': lambda: edits(word='refused'), 'believed': believed.most,
             'version': lambda: version.version(*version.CRATE),
             'plans': lambda: len(list((TOP / 'plans').glob('*.plan')))}
    sized = {'helped': lambda ports: f'{helped(ports):,}', 'pool': lambda *of: f'{pool(*of):,}',
             'megabytes': megabytes, 'claims': lambda ports: str(claims(ports))}
    if name == 'believed.long_lived':
        return str(believed.most_long_lived())
    if kind in sized and re.fullmatch(r'\d+(\.\d+)?', part):
        return sized[kind](*map(int, part.split('.')))
    if kind == 'limit' and option(part) is not None:
        return f'{option(part):,}'
    if kind == 'steps' and part.count('.') == 1:
        return steps(*part.split('.'))
    if kind == 'edits' and (TOP / 'crates' / part).is_dir() and part:
        return str(edits(part))
    return str(plain[name]()) if name in plain else None


def figures(page, write):
    """Whether each figure of a page is right, with what is said of it; with `write` the wrong ones are put right."""
    text, found = page.read_text(encoding='utf-8'), []

    def put_right(match):
        right = figure(match[2])
        if right is None:
            found.append(f'{page.relative_to(TOP)}: there is no figure {match[2]}')
            return match[0]
        found.append(None if write or right == match[3] else
                     f'{page.relative_to(TOP)}: {match[2]} is {right}, not {match[3]}: tests/counts.py --write')
        return match[1] + right + match[4]

    fresh = FIGURE.sub(put_right, text)
    if write and fresh != text:
        page.write_text(fresh, encoding='utf-8')
    return found


def rows(text, first):
    """The rows of the first table in a text whose first cell is this."""
    lines = text.split('\n')
    start = next((k for k, line in enumerate(lines) if line.startswith(f'| {first} |')), None)
    if start is None:
        return
    for line in lines[start:]:
        if not line.startswith('|'):
            return
        yield [cell.strip() for cell in line.strip('|').split('|')]


def speeds():
    """What is said of each row of README.md's table of speed."""
    measured = list(rows((TOP / 'docs' / 'benches.md').read_text(encoding='utf-8'), 'ns a call'))
    told = list(rows((TOP / 'README.md').read_text(encoding='utf-8'), 'ns a call'))
    if len(told) < 3 or len(measured) < 3:
        return ['README.md or docs/benches.md has no table of speed']
    cells = {(row[0], name): cell for row in measured for name, cell in zip(measured[0][1:], row[1:])}
    objects = told[0][1:]
    return [None if row[1:] == [cells.get((row[0], name)) for name in objects] else
            f'README.md: the row "{row[0]}" is not that of docs/benches.md' for row in told[2:]]


def benches():
    """What is said of how docs/benches.md begins, and of the number of measurements in one thread."""
    names = 'docs/benches.md', 'benches/head.md', 'README.md'
    page, head, readme = ((TOP / it).read_text(encoding='utf-8') for it in names)
    yield None if page.startswith(head) else 'docs/benches.md does not begin with benches/head.md'
    counted = [re.search(rf'const {name}: usize = (\d+);', (TOP / 'benches' / 'src' / file).read_text(encoding='utf-8'))
               for name, file in (('REPETITIONS', 'main.rs'), ('ROUNDS_ALONE', 'benches.rs'))]
    many = int(counted[0][1]) * int(counted[1][1])
    yield None if f'minimum of {many} measurements' in readme else f'README.md: the benches make {many} measurements'


def length():
    """What is said of the length of README.md."""
    lines = len((TOP / 'README.md').read_text(encoding='utf-8').splitlines())
    return None if lines <= 150 else f'README.md has {lines} lines, and at most 150 are wanted'


def named():
    """What is said of each crate: CONTRIBUTING.md's part on a new call names it, and the page on architecture."""
    lines = (TOP / 'crates.txt').read_text(encoding='utf-8').splitlines()
    page = (TOP / 'CONTRIBUTING.md').read_text(encoding='utf-8')
    parts = {'CONTRIBUTING.md, "Add a call"': page.partition('\n## Add a call\n')[2].partition('\n## ')[0],
             'docs/proof/architecture.md': (TOP / 'docs' / 'proof' / 'architecture.md').read_text(encoding='utf-8')}
    for crate in [line.partition(':')[0].split()[0] for line in lines if line and not line.startswith('#')]:
        for name, text in parts.items():
            yield None if f'`{crate}`' in text else f'{name} does not name {crate}'


def main(words):
    found = speeds() + list(benches()) + [length()] + list(named())
    for page in links.kept('*.md'):
        found += figures(page, words == ['--write'])
    faults = [fault for fault in found if fault]
    if len(found) < 2:
        faults.append('there is no figure')
    print('\n'.join(faults + [f'{found.count(None)} passed, {len(faults)} failed']))
    return bool(faults)


if __name__ == '__main__':
    sys.exit(main(sys.argv[1:]))
