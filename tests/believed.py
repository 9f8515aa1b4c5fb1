#!/usr/bin/env python3
"""Counts the lines of definitions that a reader believes for the contracts of public functions.

A contract cites definitions of specs/, and these cite others. Followed from the clauses of a function on, each
definition that is reached counts with its lines, but for comments, imports and blank ones. What a function's words
mean is what the imports of its file say. The tables of docs/proof/trust.md are made of that, and the two numbers of
lines that README.md gives are the greatest of the calls of a single opening and of the long-lived memory. With --write the tables are written
anew; with FILE FUNCTION [CLAUSE..] it lists what the clauses of one function reach. The last line is
'N passed, M failed', one for each row.
"""
import re
import sys
from pathlib import Path

TOP = Path(__file__).resolve().parent.parent
PAGE = TOP / 'docs' / 'proof' / 'trust.md'
# How a port made its steps, and that the state is lawful; what a call answers is said without these.
LED = ('led', 'led_to_refusal', 'lawful')
MEMORY = 'partial_memory/src/memory.rt'
CALLS = [
    (MEMORY, ['open', 'reopen', 'update', 'update_if', 'read', 'scan', 'meet', 'close']),
    ('partial_memory/src/port.rt', ['number']),
    ('partial_workers/src/workers.rt', ['run_on']),
    ('partial_pipeline/src/run.rt', ['run_pipeline']),
    ('partial_replay/src/replaying.rt', ['replay']),
    ('partial_model/src/checker.rt', ['check_outcome', 'check']),
    ('partial_text/src/reading.rt', ['read']),
    ('partial_cmd/src/command.rt', ['execute']),
    ('partial_cmd/src/next.rt', ['execute_next']),
]
LONG_LIVED = [
    ('partial_long_lived/src/long_lived.rt', ['open', 'close']),
    ('partial_long_lived/src/calls.rt', ['update', 'update_if', 'read', 'scan', 'scan_stamped', 'unchanged', 'meet']),
]
OPENING = [*CALLS[:2], ('partial_memory/src/port.rt', ['pool_spent', 'slots_spent']), ('partial_memory/src/law.rt', None)]
LONG = [*LONG_LIVED, ('partial_long_lived/src/law.rt', None)]
TOGETHER = OPENING + LONG + [
    CALLS[2], *CALLS[4:], ('partial_cmd/src/workers.rt', ['run_workers']),
    ('partial_text/src/writing.rt', ['write_outcome', 'write_report', 'write_reports']),
    ('partial_replay/src/law.rt', None), ('partial_text/src/law.rt', None), ('partial_cmd/src/law.rt', None),
]
WORD = re.compile(r"[^\s(){};,=→×⊎λ∷\[\]]+")
IMPORT = re.compile(r'^(?:pub )?(?:ghost )?use (Rattle\.\S+?)(?:\.\{(.*)\}| as (\S+?))?;?$')
HEAD = re.compile(r'^(?:(?:abbrev|unfoldable) )*pub (?:record |data )?([^\s:({]+)')
CLAUSE = re.compile(r'\b(?:requires|ensures)(?: (\w+))? \{')


class Names:
    """What the words of a file mean, as its imports say."""

    def __init__(self):
        self.names, self.modules = {}, {}

    def take(self, line):
        """Whether the line is an import; takes it in."""
        found = IMPORT.match(line.strip())
        if not found:
            return False
        path, words, short = found.groups()
        if short:
            self.modules[short] = path
        elif words:
            for word in words.split(','):
                old, _, new = word.strip().partition(' as ')
                self.names[(new or old).strip()] = f'{path}.{old.strip()}'
        return True

    def meant(self, text):
        """The full names of the words of a text that its imports know, and each word itself."""
        for word in set(WORD.findall(text)):
            word = word.rstrip('.')
            first, _, rest = word.partition('.')
            yield from (self.names[known] for known in (word, first) if known in self.names)
            if first in self.modules and rest:
                yield f'{self.modules[first]}.{rest.split(".")[0]}'


class Definition:
    """A definition of specs/: its module, its file's names, and its lines."""

    def __init__(self, module, names):
        self.module, self.names, self.lines = module, names, []

    def cited(self):
        text = '\n'.join(re.sub(r'--.*', '', line) for line in self.lines)
        yield from self.names.meant(text)
        for word in set(WORD.findall(text)):
            yield f'{self.module}.{word.rstrip(".").partition(".")[0]}'
            yield f'{self.module}.{word.rstrip(".")}'


def definitions():
    """All definitions of specs/ by their full names."""
    found = {}
    for path in sorted((TOP / 'crates').glob('*/specs/**/*.antt')):
        crate, _, rest = path.relative_to(TOP / 'crates').as_posix().partition('/specs/')
        if rest == 'Lib.antt':
            continue
        module = f'Rattle.{crate}.specs.{rest[:-5].replace("/", ".")}'
        names, current = Names(), None
        for line in path.read_text(encoding='utf-8').split('\n'):
            if names.take(line):
                current = None
                continue
            if not line.strip() or line.strip().startswith('--'):
                continue
            head = HEAD.match(line)
            if head:
                current = found.setdefault(f'{module}.{head[1]}', Definition(module, names))
            if current:
                current.lines.append(line)
    return found


def contracts(text, function):
    """The texts between the heads and the bodies of the public functions of this name, or of all."""
    for found in re.finditer(r'^( *)pub fn (\w+)\b', text, re.M):
        if function in (None, found[2]):
            end = re.compile(rf'^{found[1]}\{{\}}?$', re.M).search(text, found.end())
            yield re.sub(r'^\s*//.*', '', text[found.end():end.start()], flags=re.M)


def clauses(file, function):
    """The clauses of a function: their names, and what the file's imports say that their words mean."""
    names, text = Names(), (TOP / 'crates' / file).read_text(encoding='utf-8')
    for line in text.split('\n'):
        names.take(line)
    for contract in contracts(text, function):
        for found in CLAUSE.finditer(contract):
            depth, end = 1, found.end()
            while depth:
                depth += {'{': 1, '}': -1}.get(contract[end], 0)
                end += 1
            yield found[1], set(names.meant(contract[found.end():end - 1]))


def roots(file, functions, left_out=()):
    """What the clauses of these functions of a file cite, but for the clauses left out."""
    cited = set()
    for function in functions or [None]:
        found = list(clauses(file, function))
        if not found:
            raise SystemExit(f'{file} has no contract of {function}\n0 passed, 1 failed')
        for name, words in found:
            if name not in left_out:
                cited |= words
    return cited


def reached(known, cited):
    """The definitions that are reached from these names on."""
    seen, left = set(), list(cited)
    while left:
        name = left.pop()
        owner = name if name in known else name.rpartition('.')[0]
        if owner in known and owner not in seen:
            seen.add(owner)
            left.extend(known[owner].cited())
    return seen


def lines(known, names):
    return sum(len(known[name].lines) for name in names)


def call_rows(known):
    """A row for each call: its name, and what its clauses reach, with those of LED and without."""
    for file, functions in [*LONG_LIVED, *CALLS]:
        for function in functions:
            answers = reached(known, roots(file, [function], LED))
            whole = reached(known, roots(file, [function]))
            yield f'`{function}` of `{file.partition("/")[0]}`', answers, whole


def call_table(known):
    text = '| Call | Answers: lines | definitions | All clauses: lines | definitions |\n|---|---|---|---|---|\n'
    for name, answers, whole in call_rows(known):
        text += f'| {name} | {lines(known, answers)} | {len(answers)} | {lines(known, whole)} | {len(whole)} |\n'
    return text


def crate_table(known):
    columns = [set(known)]
    columns += [reached(known, set().union(*(roots(*each) for each in part))) for part in (OPENING, LONG, TOGETHER)]
    text = '| Crate | All | Single opening | Long-lived memory | Together |\n|---|---|---|---|---|\n'
    named = (TOP / 'crates.txt').read_text(encoding='utf-8').splitlines()
    crates = [line.partition(':')[0].split()[0] for line in named if line and not line.startswith('#')]
    for crate in crates:
        own = [[name for name in names if name.startswith(f'Rattle.{crate}.')] for names in columns]
        if own[0]:
            text += f'| `{crate}` | ' + ' | '.join(f'{lines(known, names):,}' for names in own) + ' |\n'
    return text + '| all | ' + ' | '.join(f'{lines(known, names):,}' for names in columns) + ' |\n'


def most():
    """The greatest number of lines that a call of an open memory asks a reader to believe for its answer."""
    known = definitions()
    return max(lines(known, reached(known, roots(MEMORY, [name], LED))) for name in CALLS[0][1] if 'open' not in name)


def most_long_lived():
    """The same of a call of an open long-lived memory."""
    known = definitions()
    return max(lines(known, reached(known, roots(file, [name], LED))) for file, names in LONG_LIVED for name in names
               if name != 'open')


def main(words):
    known = definitions()
    if words and words != ['--write']:
        for name in sorted(reached(known, set().union(*(cited for clause, cited in clauses(*words[:2])
                                                        if not words[2:] or clause in words[2:])))):
            print(f'{len(known[name].lines):5} {name[7:]}')
        return 0
    page = fresh = PAGE.read_text(encoding='utf-8')
    rows = 0
    for name, table in (('calls', call_table(known)), ('crates', crate_table(known))):
        place = re.compile(rf'(<!-- believed: {name} -->\n).*?(<!-- end -->\n)', re.S)
        if len(place.findall(fresh)) != 1:
            print(f'docs/proof/trust.md has no one place for its {name}\n0 passed, 1 failed')
            return 1
        fresh = place.sub(lambda found: f'{found[1]}\n{table}\n{found[2]}', fresh)
        rows += table.count('\n') - 2
    if words == ['--write']:
        PAGE.write_text(fresh, encoding='utf-8')
    elif fresh != page:
        told = page.split('\n')
        wrong = [line for line in fresh.split('\n') if line not in told]
        print('\n'.join(wrong + ['docs/proof/trust.md has other lines: tests/believed.py --write']))
        print(f'{rows - len(wrong)} passed, {max(len(wrong), 1)} failed')
        return 1
    print(f'{rows} passed, 0 failed')
    return 0


if __name__ == '__main__':
    sys.exit(main(sys.argv[1:]))
