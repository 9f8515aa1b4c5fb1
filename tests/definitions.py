"""Tries wrong definitions: copies what a changed definition reaches, and sees that a law over the copy is refused.

A definition of specs/ may have no code. What refuses a wrong one is the proof of a law, a function without code
whose contract is a type of specs/. An edit of a definition names its law. For each edit those modules are copied, under
names of their own, that depend on the changed file and that the law needs, and of each the declarations that it needs.
All else is imported from the crate as it is. The law stands over the copy as a function of its own. Many copies stand
side by side in one check, which asks for nothing else: the crate's code stands there as it is, for the types that it declares.

An edit is refused where its law is not proved, since the prover refuses a declaration of the copied proofs by its
meaning. A definition that is none refuses nothing, nor does a name or a module that isn't found, a run out of steps, or a
check without a verdict. Nor does one that the prover's own search shows to be equal to the one before it, by a comparison
that stands beside the copies (tests/comparisons.py). Beside the copies of each file that edits change, and of each law
that they name then, stands the same copy without a change. It has to be proved, else the copying is wrong and each of
these edits fails.
"""
import re
import shutil
import sys
from dataclasses import dataclass
from pathlib import Path

sys.path.insert(0, str(Path(__file__).resolve().parent))
from comparisons import EQUAL, Comparisons  # noqa: E402
from modules import Import, Modules, imports_of  # noqa: E402

# A function without code, with the types that it ensures.
LAW = re.compile(r'^pub fn (\w+)\(\)\n((?:    ensures .*\n(?:        .*\n)*)+)\{\}$', re.M)
GHOST = re.compile(r'^ghost use (.*);$', re.M)
# So many edits at most in a round: what a check holds in memory grows with them.
ROUND = 40
# What a definition stands in, and the parts of a crate.
SPECS = 'specs/'
PARTS = ('src', 'specs', 'proofs')
# The copies of edits, and those without a change.
WRONG, RIGHT = 'wrong', 'right'
# An error in a file, as the prover says it: the file, and why.
ERROR = re.compile(r'^\./((?:specs|proofs)/\S+?\.antt)\S*: error: (.*(?:\n  .*)*)', re.M)
# An error that only says that an earlier one stands in a declaration's way.
BEHIND = re.compile(r'\d+ declarations? that depends? on ')
# An error of meaning names a declaration. It says neither that a name is missing nor that the prover came to no verdict.
OF_MEANING = re.compile(r'`[^`]+`: ')
LACKING = re.compile(r'is not in scope|has no field|has no `|is no name')
SPENT = re.compile(r'r[ua]n out of|could not tell|stopped at the step limit')


@dataclass
class Law:
    """A function without code: its module and name, its text, the imports of its types, and its answers."""

    module: str
    name: str
    text: str
    types: list[Import]
    answers: str

    def imports(self):
        return [*self.types, *self.imports_of_answers()]

    def imports_of_answers(self):
        """What its answers import: of a module that they import whole, what they name of it."""
        found = imports_of(self.answers)
        return [it for it in found if it.name] + [
            Import(it.path, name, name, False) for it in found if not it.name
            for name in dict.fromkeys(re.findall(rf'(?<![\w.]){re.escape(it.here_now())}\.([^\s(){{}},.]+)', self.answers))]


class NoLaw(Exception):
    """A name of a law that there is none of."""


def law_of(crate, path):
    """The law at this path below the crate."""
    module, _, name = path.rpartition('::')
    file, answers = crate / f'src/{module}.rt', crate / f'proofs/{module}/{name}/Answers.antt'
    text = file.read_text(encoding='utf-8') if module and file.exists() else ''
    for found in LAW.finditer(text):
        if found[1] == name and answers.exists():
            named = set(re.findall(r'\w+|[^\w\s]+', found[2]))
            types = [it for line in GHOST.finditer(text) for it in imports_of(f'use {line[1]}')
                     if it.here.strip('◌') in named]
            return Law(module, name, found[0], types, answers.read_text(encoding='utf-8'))
    raise NoLaw(f'it names no law: {path}')


@dataclass
class Copy:
    """A law over a copy of what a file reaches: with the changes of an edit, or with none, to see that copying is right.
    Its modules have names that begin with its mark."""

    mark: str
    law: Law
    changed: str
    changes: list[tuple[str, str, str]]

    def write(self, modules, room):
        """Writes the copy and its law to the crate in this folder."""
        copied = modules.copied(self.changed, self.law.imports())
        for it in sorted(copied):
            folder, _, file = it.partition('.')
            imports, kept = modules.copy_of(it, copied, self.mark)
            text = imports + (self.turned(kept) if it == self.changed else kept)
            write(room / folder / f'{self.mark}_{file}.antt', text)
            append(room / folder / 'Lib.antt', f'pub mod {self.mark}_{file}\n')
        types = ''.join(f'ghost {modules.rewritten(f"use {it.path}.{{{it.name}}}", copied, self.mark)};\n'
                        for it in self.law.types)
        write(room / f'src/{self.mark}.rt', f'{types}\n{self.law.text}\n')
        append(room / 'src/lib.rt', f'pub mod {self.mark};\n')
        proofs = f'Rattle.{modules.crate.name}.proofs.'
        answers = self.law.answers.replace(f'{proofs}{self.law.module}.', f'{proofs}{self.mark}.')
        write(room / self.answers_at(), modules.rewritten(answers, copied, self.mark))

    def turned(self, text):
        """The text of the changed file with the changes."""
        for _, old, new in self.changes:
            text = text.replace(old, new)
        return text

    def comparisons(self, modules):
        """The comparisons of what is changed with what was there."""
        return Comparisons(self.mark.replace(WRONG, EQUAL), self.changed, [
            self.turned(it.text) for it in modules.parts[self.changed] if self.turned(it.text) != it.text])

    def answers_at(self):
        return f'proofs/{self.mark}/{self.law.name}/Answers.antt'

    def told(self, crate, said):
        """What a check of the crate says of the law, or nothing, and its errors in the copy: each with its file."""
        line = re.search(rf'^fn {crate}::{self.mark}::{self.law.name}: (.*)$', said, re.M)
        errors = [(file, why) for file, why in ERROR.findall(said)
                  if re.match(rf'\w+/{self.mark}[_/]', file) and not BEHIND.match(why)]
        return line and line[1], errors

    def why_not(self, crate, said):
        """Why the law does not refuse the changes, by what a check says, or nothing where it does."""
        line, errors = self.told(crate, said)
        if line is None or not line.startswith('not proved'):
            return [f'the law is not refused: {line or "nothing is said of it"}']
        wrong = [f'the definition is none, or is copied wrongly: {file}: {why}' for file, why in errors
                 if file.startswith(SPECS) or file == self.answers_at()]
        lacking = [f'a proof names what is gone, or is none: {file}: {why}' for file, why in errors
                   if LACKING.search(why) or not OF_MEANING.match(why)]
        spent = [f'a run out of steps: {file}: {why}' for file, why in errors if SPENT.search(why)]
        return wrong[:1] + lacking[:1] + spent[:1] or ([] if errors else ['no proof of it is refused'])

    def why_wrong(self, crate, said):
        """Why copying is wrong, by what a check says of a copy without a change, or nothing where it is right."""
        line, errors = self.told(crate, said)
        if line == 'proved' and not errors:
            return []
        return [f'without the change the law is not proved: {line or "nothing is said of it"}',
                *[f'{file}: {why}' for file, why in errors[:1]]]


def write(path, text):
    path.parent.mkdir(parents=True, exist_ok=True)
    path.write_text(text, encoding='utf-8')


def append(path, text):
    write(path, path.read_text(encoding='utf-8') + text)


def copy_of(edit, modules, mark, changes):
    """The copy for an edit, with these changes."""
    path, = edit.refused
    law = law_of(modules.crate, path)
    changed = 'specs.' + edit.changes[0][0].removeprefix(SPECS).removesuffix('.antt')
    kept = modules.copied(changed, law.imports_of_answers()).get(changed, [])
    if not all(any(old in it.text for it in kept) for _, old, _ in edit.changes):
        raise NoLaw(f'the proof of its law does not need what it changes: {path}')
    return Copy(mark, law, changed, changes)


def copies_of(edits, modules):
    """For each of these edits its copy and the one without a change, which edits of one file and one law share; and what
    is wrong with the others, each with the name of its edit."""
    found, right, faults = [], {}, []
    for number, edit in enumerate(edits):
        try:
            turned = copy_of(edit, modules, f'{WRONG}_{number}', edit.changes)
        except NoLaw as why:
            faults.append((edit.name, f'{modules.crate.name}/{edit.name}: bad edit: {why}'))
            continue
        pair = turned.changed, turned.law.module, turned.law.name
        same = right.setdefault(pair, Copy(f'{RIGHT}_{number}', turned.law, turned.changed, []))
        found.append((edit, turned, same))
    return found, [*right.values()], faults


def copy_crate(crate, room):
    """Copies a crate to this folder, in place of what stood there. Its definitions may name types of its code."""
    for part in PARTS:
        shutil.rmtree(room / part, ignore_errors=True)
        shutil.copytree(crate / part, room / part)


def try_round(modules, room, edits, check):
    """Tries these edits together: what is wrong, each with the name of its edit."""
    copy_crate(modules.crate, room)
    found, right, faults = copies_of(edits, modules)
    copies = [*[turned for _, turned, _ in found], *right]
    compared = [it for it in (turned.comparisons(modules) for _, turned, _ in found) if it.are_possible()]
    for it in [*copies, *compared]:
        it.write(modules, room)
    name = modules.crate.name
    why, said = check([it.mark for it in [*copies, *compared]]) if copies else (None, '')
    equal = {it.mark for it in compared if it.are_equal(name, said)}
    for edit, turned, same in found:
        lines = [why] if why else [*turned.why_not(name, said), *same.why_wrong(name, said)]
        if turned.comparisons(modules).mark in equal:
            lines.append('the definition is equal to the one before')
        if lines:
            law, = edit.refused
            faults.append((edit.name, '\n    '.join([f'{name}/{edit.name}: {law} does not refuse it', *lines])))
    return faults


def try_edits(crate, room, edits, check):
    """Tries edits of definitions of the crate in one folder in rounds, in another folder: what is wrong, each with the name
    of its edit. The check gives of these modules of that crate why there is no verdict, or nothing, and what is said."""
    if not edits:
        return []
    modules = Modules(crate)
    edits = sorted(edits, key=lambda it: (it.changes[0][0], [*it.refused]))
    return [fault for begin in range(0, len(edits), ROUND)
            for fault in try_round(modules, room, edits[begin:begin + ROUND], check)]
