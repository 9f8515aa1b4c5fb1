"""Asks whether a changed definition is equal to the one before: then it is no wrong one, whatever a proof makes of it.

In a module of its own the changed declarations stand alone; all else that they name is imported from the crate as it is.
Of a function without code beside it the prover's own search is asked whether each is equal to the one before: of two
functions, whether their values are equal everywhere; of two types, whether each one follows from the other. A search that
finds the proof shows it. One that finds none shows nothing: the two may be equal by an induction, or by a lemma that the
search doesn't know. Nothing is asked of a `data`, nor of what has no clauses.
"""
import re
from dataclasses import dataclass

from modules import COMMENT, WORD, Part

EQUAL = 'equal'
# The head of a function, of a record, of a type of either kind, and of a group of parameters.
FUNCTION = re.compile(r'((?:abbrev |unfoldable |pub )*)([^\s:(){}]+) : ')
RECORD = re.compile(r'(?:pub )?record (\S+)((?:.|\n)*?) : Type 0 where\n')
TYPE = re.compile(r'^(?:pub )?(data|record) (\S+)', re.M)
GROUP = re.compile(r'([({])([^:(){}]*) : ')


@dataclass
class Comparison:
    """How a changed declaration is compared: its name, its parameters as they are declared and as they are given, whether
    it is a type, and whether it has to be unfolded by its name."""

    name: str
    declared: list[str]
    given: list[str]
    is_type: bool
    is_unfolded: bool

    def statement(self):
        """That the changed declaration and the one before are equal."""
        new, old = (' '.join([it, *self.given]) for it in (self.name, f'before.{self.name}'))
        are = f'({new} → {old}) × ({old} → {new})' if self.is_type else f'({new}) ≡ ({old})'
        return f'{" ".join(self.declared)} → {are}' if self.declared else are


def comparison_of(text):
    """How a declaration is compared, or nothing where it can't be."""
    text = ''.join(line for line in text.splitlines(keepends=True) if not line.startswith('--'))
    record, function = RECORD.match(text), FUNCTION.match(text)
    if record:
        declared = groups_of(record[2].strip()) or []
        return Comparison(record[1], declared, [name for it in declared for name in names_of(it)], True, False)
    clauses = function and re.compile(rf'^{re.escape(function[2])}(?= )', re.M).search(text, function.end())
    if not clauses:
        return None
    *domains, result = steps_of(COMMENT.sub('', text[function.end():clauses.start()]))
    declared, given = [], []
    for number, domain in enumerate(domains):
        groups = groups_of(domain) or [f'(x{number} : {domain})']
        declared += groups
        given += [name for it in groups for name in names_of(it)]
    return Comparison(function[2], declared, given, result.startswith('Type '), 'unfoldable' in function[1])


def steps_of(type_of):
    """The parts of a type between its arrows outside of parentheses."""
    parts, depth = [''], 0
    for sign in ' '.join(type_of.split()):
        depth += {'(': 1, '{': 1, ')': -1, '}': -1}.get(sign, 0)
        if depth == 0 and sign == '→':
            parts.append('')
        else:
            parts[-1] += sign
    return [it.strip() for it in parts]


def groups_of(part):
    """The groups of parameters of which a part of a type is made, or nothing where it is another one."""
    groups, depth = [''], 0
    for sign in part:
        depth += {'(': 1, '{': 1, ')': -1, '}': -1}.get(sign, 0)
        groups[-1] += sign
        if depth == 0 and sign in ')}':
            groups.append('')
    groups = [it.strip() for it in groups if it.strip()]
    return groups if groups and all(GROUP.match(it) for it in groups) else None


def names_of(group):
    """The parameters of a group that are given by hand: those in parentheses."""
    found = GROUP.match(group)
    return found[2].split() if found[1] == '(' else []


@dataclass
class Comparisons:
    """The changed declarations of a module of specs/, in a module whose name begins with this mark."""

    mark: str
    module: str
    texts: list[str]

    def are_possible(self):
        return all(comparison_of(it) for it in self.texts)

    def write(self, modules, room):
        """Writes them, and the functions without code that are asked, to the crate in this folder."""
        file = f'{self.mark}_{self.module.partition(".")[2]}'
        compared = [comparison_of(it) for it in self.texts]
        asked = ''.join(f'\nabbrev pub AreEqual{number} : Type 0\nAreEqual{number} = {it.statement()}\n'
                        for number, it in enumerate(compared))
        texts = ''.join(f'\n{it.rstrip()}\n' for it in self.texts)
        (room / f'specs/{file}.antt').write_text(f'{self.imports(modules)}{texts}{asked}', encoding='utf-8')
        add_line(room / 'specs/Lib.antt', f'pub mod {file}')
        names = ', '.join(f'AreEqual{number}' for number, _ in enumerate(compared))
        (room / f'src/{self.mark}.rt').write_text(
            f'ghost use Rattle.{modules.crate.name}.specs.{file}.{{{names}}};\n' + ''.join(
                f'\n{self.unfolding(it, file)}pub fn is_equal_{number}()\n    ensures {{ AreEqual{number} }}\n{{}}\n'
                for number, it in enumerate(compared)), encoding='utf-8')
        add_line(room / 'src/lib.rt', f'pub mod {self.mark};')

    def imports(self, modules):
        """What the changed declarations import: what the file does, what else it declares, and the file."""
        above, path = modules.above[self.module], f'Rattle.{modules.crate.name}.{self.module}'
        own = set().union(*[Part(it).names for it in self.texts])
        words = {word for it in self.texts for word in WORD.findall(COMMENT.sub('', it))}
        named = {}
        for it in modules.parts[self.module]:
            found = TYPE.search(it.text)
            for name in sorted(it.names & words - own):
                if not found or name == found[2]:
                    named.setdefault(path, []).append(name)
                elif found[1] == 'data':
                    named.setdefault(f'{path}.{found[2]}', []).append(name)
        return ''.join(f'{it}\n' for it in [
            above.rstrip(), *(['use Rattle.std.specs.Prelude.{◌≡◌}'] if '◌≡◌' not in above else []),
            *[f'use {where}.{{{", ".join(names)}}}' for where, names in named.items()], f'use {path} as before'])

    def unfolding(self, compared, file):
        """The line that has a declaration unfolded that isn't by itself."""
        if not compared.is_unfolded:
            return ''
        there = f'crate::{self.module.replace(".", "::")}::{compared.name}'
        return f'#[tactic(auto, unfolding(crate::specs::{file}::{compared.name}, {there}))]\n'

    def are_equal(self, crate, said):
        """Whether a check shows that each of them is equal to the one before."""
        return all(re.search(rf'^fn {crate}::{self.mark}::is_equal_{number}: proved$', said, re.M)
                   for number, _ in enumerate(self.texts))


def add_line(path, line):
    path.write_text(path.read_text(encoding='utf-8') + f'{line}\n', encoding='utf-8')
