#!/usr/bin/env python3
"""Finds definitions of proof files that nothing uses.

A proof of a crate begins at its answers: the files in the folders of proofs/, one for each function or law, and the lemmas
that the code names (`using(crate::proofs::..)`). They use the definitions in the files right in proofs/ that they name, and
those use what they name in turn, in files of crates below too. A line `name : type`, a `record` or a `ruleset`, at the left
edge or in a block `module .. where`, that is used by none of these is a failure, even where another unused one names it. An
import or a field after a dot names nothing, nor does a comment. A variable or a local definition that is called like a
definition of the file is taken for it, so what is found is never too much. Files whose definitions are there to be read
stand in READ, each with the reason. The last line is 'N passed, M failed', one for each definition, and one for each file
of READ that isn't there.
"""
import re
import sys
from collections import defaultdict
from dataclasses import dataclass, field
from pathlib import Path

sys.path.insert(0, str(Path(__file__).resolve().parent))
from modules import imports_of  # noqa: E402

TOP = Path(__file__).resolve().parent.parent
# The files whose definitions need no use, and why.
READ = {('partial_model', 'proofs', 'WorkedRows'): 'outcomes that were worked out by hand: what they test is a definition'}
# The head of a definition: the words before it, its names, and what follows them.
HEAD = re.compile(r'((?:(?:pub|abbrev|unfoldable|pattern|record|data|ruleset) )*)([^(){}\[\]=:;,]*)(.?)')
COMMENT = re.compile(r'(?<!\S)--.*')
# A name with what is taken from it by dots.
CHAIN = re.compile(r'[^\s(){}\[\];,]+')
BY_CODE = re.compile(r'\bcrate::proofs::(\w+)::([^\s,()\[\]]+)')


@dataclass
class Definition:
    """A definition: its names, the numbers of its first line, with the comments above it, of its head and after its last
    one, the blocks around it, and the names in it, each with the one that it is taken from by a dot."""

    names: list[str]
    first: int
    head: int
    end: int
    blocks: tuple = ()
    words: set = field(default_factory=set)


@dataclass
class Block:
    """A block of definitions: the numbers of its first line and of that after its head, how deep what it holds stands, and
    the names in its head."""

    first: int
    end: int
    depth: int
    words: set = field(default_factory=set)


def words_of(line):
    """The names in a line without imports, each with the one that it is taken from."""
    for chain in CHAIN.findall(COMMENT.sub('', line)):
        first, *more = chain.split('.')
        yield None, first
        if more:
            yield first, more[0]


def names_defined(line):
    """The names that a line defines, where it is the head of a definition."""
    marks, names, sign = HEAD.match(line).groups()
    is_alone = any(mark in marks for mark in ('record', 'data', 'ruleset'))
    return names.split()[:1] if is_alone else names.split() if sign == ':' and names.endswith(' ') else []


def definitions_of(text):
    """The definitions of a proof file."""
    found, blocks, above, is_head = [], [], None, False
    for number, line in enumerate(text.split('\n')):
        bare, depth = line.strip(), len(line) - len(line.lstrip())
        if bare.startswith('--'):
            above = number if above is None else above
            continue
        first, above = number if above is None else above, None
        if not bare or line.startswith(('use ', 'pub use ')):
            continue
        if is_head:
            blocks[-1].words |= set(words_of(line))
            blocks[-1].end, is_head = number + 1, not bare.endswith(' where')
            continue
        while blocks and depth < blocks[-1].depth and bare[0] not in ')}]':
            blocks.pop()
        here = depth == (blocks[-1].depth if blocks else 0)
        names = names_defined(bare) if here else []
        if here and bare.startswith(('module ', 'pub module ')):
            blocks.append(Block(first, number + 1, depth + 2, set(words_of(line))))
            is_head = not bare.endswith(' where')
        elif here and blocks and bare.startswith('open '):
            blocks[-1].words |= set(words_of(line))
        else:
            if names:
                found.append(Definition(names, first, number, number, tuple(blocks)))
            if found:
                found[-1].words |= set(words_of(line))
                found[-1].end = number + 1
    return found


class Module:
    """A proof file: its definitions, by their names too, and where the names that it imports come from."""

    def __init__(self, text, is_answer):
        self.definitions = [] if is_answer else definitions_of(text)
        self.by_name = defaultdict(list)
        for it in self.definitions:
            for name in it.names:
                self.by_name[name].append(it)
        self.imports, self.passed_on = defaultdict(list), {}
        for it in imports_of(text):
            path = tuple(it.path.split('.')[1:]) + ((it.name,) if it.name else ())
            self.imports[it.here_now()].append(path)
            if it.is_public:
                self.passed_on[it.here_now()] = path
        # the names with places for what they stand between
        self.operators = [name for name in (*self.by_name, *self.imports) if '◌' in name]
        # of an answer everything is used
        self.words = {word for line in text.split('\n') if is_answer and not line.startswith(('use ', 'pub use '))
                      for word in words_of(line)}

    def named(self, own, words):
        """The paths of what these words name of any proof file, where this is the path of the module itself."""
        for before, word in words:
            if before is None:
                yield (*own, word)
                yield from self.imports.get(word, ())
            else:
                yield from ((*path, word) for path in self.imports.get(before, ()))
        said = {word for _, word in words}
        for name in self.operators:
            if said.issuperset(name.replace('◌', ' ').split()):
                yield (*own, name)
                yield from self.imports.get(name, ())


def read(crates):
    """The proof files by their paths, and the paths of what the code names."""
    modules, by_code = {}, []
    for path in sorted(crates.glob('*/proofs/**/*.antt')):
        parts = path.relative_to(crates).with_suffix('').parts
        if parts[2:] != ('Lib',):
            modules[parts] = Module(path.read_text(encoding='utf-8'), len(parts) > 3 or parts in READ)
    for path in crates.glob('*/src/**/*.rt'):
        crate = path.relative_to(crates).parts[0]
        by_code += [(crate, 'proofs', *it) for it in BY_CODE.findall(path.read_text(encoding='utf-8'))]
    return modules, by_code


def used_in(modules, by_code):
    """The definitions that are used, each by its file and its first line."""
    used, seen = set(), set()
    left = [*by_code, *(path for own, it in modules.items() for path in it.named(own, it.words))]
    while left:
        path = left.pop()
        module = modules.get(path[:3])
        if path in seen or module is None or len(path) < 4:
            continue
        seen.add(path)
        if path[3] in module.passed_on:
            left.append((*module.passed_on[path[3]], *path[4:]))
        for it in module.by_name.get(path[3], []):
            if (path[:3], it.first) not in used:
                used.add((path[:3], it.first))
                left += module.named(path[:3], it.words.union(*(block.words for block in it.blocks)))
    return used


def unused_in(modules, by_code):
    """The definitions that are not used, each with the path of its file."""
    used = used_in(modules, by_code)
    return [(own, it) for own, module in modules.items() for it in module.definitions if (own, it.first) not in used]


def main():
    modules, by_code = read(TOP / 'crates')
    unused = unused_in(modules, by_code)
    passed = sum(len(it.definitions) for it in modules.values()) - len(unused)
    faults = [f'crates/{"/".join(own)}.antt:{it.head + 1}: nothing uses {" ".join(it.names)}' for own, it in unused]
    faults += [f'crates/{"/".join(own)}.antt is not there, and READ names it' for own in READ if own not in modules]
    print('\n'.join([*faults, f'{passed} passed, {len(faults)} failed']))
    return bool(faults) or not passed


if __name__ == '__main__':
    sys.exit(main())
