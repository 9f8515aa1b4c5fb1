#!/usr/bin/env python3
"""Tests how tests/definitions.py copies what a definition reaches, and how it judges what a check says of a law over a copy.

The texts are those of the prover, of checks of this repository's crates with a definition changed or a copy spoiled; long
ones are cut. The last line is 'N passed, M failed'.
"""
import sys
import tempfile
from pathlib import Path

sys.path.insert(0, str(Path(__file__).resolve().parent))
import definitions  # noqa: E402
import edits  # noqa: E402
from comparisons import Comparisons, comparison_of  # noqa: E402
from definitions import Copy, Law, NoLaw, law_of  # noqa: E402
from modules import Import, Modules, imports_of, parts_of  # noqa: E402

# A crate with laws. `Far` depends on the file that is changed, but the law `near` doesn't need it.
FILES = {
    'src/lib.rt': '#![tactic(auto)]\n\npub mod law;\n\npub use below::{Core};\n',
    'src/law.rt': '''\
ghost use Rattle.low.specs.Near.{IsNear, AreAll};
ghost use Rattle.low.specs.Far.{IsFar};
ghost use Rattle.std.specs.Prelude.{ℕ, ◌≡◌, ◌<◌};

/// All are near.
pub fn near()
    ensures { IsNear }
{}

/// Two clauses.
pub fn far()
    ensures one { IsFar }
    ensures all { AreAll }
{}

/// A clause of two lines.
pub fn wide()
    ensures one { AreAll }
    ensures two { (n : ℕ) → n ≡ 1
        → IsFar }
{}

/// A function with code is no law.
pub fn code() -> u64 {
    1
}
''',
    'specs/Lib.antt': 'pub mod Base\npub mod Near\npub mod Far\n',
    'specs/Base.antt': '-- The base.\nuse Rattle.std.specs.Prelude.{ℕ, ◌≡◌}\n\npub base : ℕ\nbase = 1\n',
    'specs/Near.antt': 'use Rattle.low.specs.Base.{base}\n\nabbrev pub IsNear : Type 0\nIsNear = base ≡ 1\n',
    'specs/Far.antt': '''\
use Rattle.low.specs.Base as far

abbrev pub IsFar : Type 0
IsFar = far.base ≡ 1

pub data Kind : Type 0 where
  One : Kind
  Two : Kind

pub record Pair (a : Kind)
    (b : Kind) : Type 0 where
  pub first : Kind
  pub second : Kind
''',
    'proofs/Lib.antt': 'mod Common\npub mod Apart\npub mod Near\npub mod Far\n',
    'proofs/Common.antt': 'pub use Rattle.std.proofs.Common.{ℕ, ◌≡◌}\npub use Rattle.low.specs.{Base.{base}, Near.{IsNear as Nearness}}\n',
    'proofs/Apart.antt': 'use Rattle.low.proofs.Common.{ℕ}\n\npub apart : ℕ\napart = 1\n',
    'proofs/Near.antt': 'use Rattle.low.proofs.{Common.{ℕ, ◌≡◌, base, Nearness as Is}, Apart.apart}\n\npub near : Is\nnear = near_as base\n\nnear_by : ℕ\nnear_by = apart\n',
    'proofs/Far.antt': 'use Rattle.low.proofs.Near.{near}\n\npub far : ℕ\nfar = near\n',
    'proofs/law/near/Answers.antt': '''\
use Rattle.low.proofs.Near.{near}
use Rattle.low.proofs.law.near.Goals as goal

pub returns : goal.returns
returns c = near
''',
    'proofs/law/far/Answers.antt': 'use Rattle.low.proofs.Apart.{apart}\n\npub returns : goal.returns\nreturns c = apart\n',
    'proofs/law/wide/Answers.antt': '''\
use Rattle.low.proofs.Far as wide
use Rattle.low.proofs.law.wide.Goals as goal

pub returns-clause-one : goal.returns-clause-one
returns-clause-one c = wide.far

pub returns-clause-two : goal.returns-clause-two
returns-clause-two c n is = (wide.far, wide.apart)
''',
}
# A declaration, and what is asked of it beside the one before: of a function, of a type with several arrows in its heads, of
# one with parameters of each kind, and of a record; and those of which nothing is asked.
COMPARED = {
    'base : ℕ\nbase = 1\n': '(base) ≡ (before.base)',
    '-- why\nabbrev pub f : ℕ → (List (ℕ → ℕ)) → ℕ\nf a l = a\n': '(x0 : ℕ) (x1 : (List (ℕ → ℕ))) → (f x0 x1) ≡ (before.f x0 x1)',
    'abbrev pub Is : (a b : ℕ) {c : ℕ} (p : ℕ → Type 0) →\n    ℕ → Type 0\nIs a b p d = p a\n': (
        '(a b : ℕ) {c : ℕ} (p : ℕ → Type 0) (x1 : ℕ) → (Is a b p x1 → before.Is a b p x1) × (before.Is a b p x1 → Is a b p x1)'),
    'pub record Pair (a : ℕ)\n    (b c : ℕ) : Type 0 where\n  pub first : a ≡ b\n': (
        '(a : ℕ)\n    (b c : ℕ) → (Pair a b c → before.Pair a b c) × (before.Pair a b c → Pair a b c)'),
    'pub data Kind : Type 0 where\n  One : Kind\n': None,
    'module _ (e : ℕ) where\n  f : ℕ\n  f = e\n': None,
}
# What is said of a copy: of a proof that the change breaks, of what depends on it, and of the law.
REFUSED = '''\
./proofs/wrong_0_Near.antt:246:48: error: `new`: `omega`: the goal does not follow from what it read. All of that holds,
  and the goal fails, at `entry.stamp` = 9, `z.m` = 1
./proofs/wrong_0_Near.antt:267:7: error: 2 declarations that depend on `new`, which was rejected, were not checked: win_is_kept, wins_are_kept (via win_is_kept)
'''
BEHIND = '''\
./proofs/wrong_0/near/Answers.antt:4:5: error: 1 declaration that depends on `near`, which was not admitted, was not checked: returns
'''
NOT_PROVED = 'fn low::wrong_0::near: not proved\n'
PROVED = 'fn low::right_0::near: proved\n'
# What is said in place of the proof that the change breaks, and the reason that is given.
NOT_REFUSED = {
    'a proof of which nothing is refused': ('', 'no proof of it is refused'),
    'a module that is not there': (
        './proofs/wrong_0_Near.antt:4:46: error: module `Rattle.low.proofs` has no `Joinedd` that can be named from here '
        '(did you mean `Joined`?)\n', 'a proof names what is gone'),
    'a name that is not there': (
        './proofs/wrong_0_Near.antt:3:50: error: module `Rattle.low.specs.wrong_0_Near` has no `nothing_there` that can be '
        'named from here\n', 'a proof names what is gone'),
    'a field that is gone': (
        './proofs/wrong_0_Near.antt:23:73: error: `is_in_slot`: record `JoinedAnnouncement` has no field `sinc` — the fields\n'
        '  that can be named here are `at`, `indices`, `since`\n', 'a proof names what is gone'),
    'a name out of scope': (
        './proofs/wrong_0_Near.antt:23:82: error: `is_in_slot`: `lowe` is not in scope; did you mean `low`?\n',
        'a proof names what is gone'),
    'a text that cannot be read': (
        './proofs/wrong_0_Near.antt:18:8: error: `abbrev` is written once\n', 'a proof names what is gone, or is none'),
    'a definition that is none': (
        './specs/wrong_0_Near.antt:23:72: error: `IsInSlot`: this is applied to an argument but has type `ℕ`, which is not a\n'
        '  function or extension (path) type\n', 'the definition is none, or is copied wrongly'),
    'an answer that is not the one of its goal': (
        './proofs/wrong_0/near/Answers.antt:5:13: error: `returns`: expected type `IsNear`\n'
        '  but this has type `Rattle.low.specs.Near.IsNear`\n', 'the definition is none, or is copied wrongly'),
    'a run out of steps': (
        './proofs/wrong_0_Near.antt:4:20: error: `near`: antt ran out of the steps that it may take\n', 'a run out of steps'),
    'an error in another copy': (REFUSED.replace('wrong_0', 'wrong_01'), 'no proof of it is refused'),
}


def cases():
    """Each case: its name, and whether it holds."""
    yield from of_imports()
    yield from of_parts()
    with tempfile.TemporaryDirectory() as room:
        crate = Path(room) / 'low'
        for path, text in FILES.items():
            definitions.write(crate / path, text)
        yield from of_modules(Modules(crate))
        yield from of_laws(crate)
        yield from of_copies(crate, Path(room) / 'copy')
        yield from of_rounds(crate, Path(room) / 'copy')
        yield from of_edits()
    yield from of_judging()
    for text, statement in COMPARED.items():
        compared = comparison_of(text)
        yield f'what is asked of {text.splitlines()[-2]}', (compared and ' '.join(compared.statement().split())) == (
            statement and ' '.join(statement.split()))


def of_imports():
    """The cases of lines of imports."""
    def named(text):
        return [(it.path, it.name, it.here) for it in imports_of(text)]

    yield 'names are imported one by one', named('use Rattle.a.specs.B.{◌≡◌, if◌then◌else◌, c as d}\n') == [
        ('Rattle.a.specs.B', '◌≡◌', '◌≡◌'), ('Rattle.a.specs.B', 'if◌then◌else◌', 'if◌then◌else◌'), ('Rattle.a.specs.B', 'c', 'd')]
    yield 'so are those of groups in groups', named('use Rattle.a.{specs.{B.{c, d}, E.f}, proofs.G.h as i}\n') == [
        ('Rattle.a.specs.B', 'c', 'c'), ('Rattle.a.specs.B', 'd', 'd'), ('Rattle.a.specs.E', 'f', 'f'), ('Rattle.a.proofs.G', 'h', 'i')]
    yield 'a module is imported whole, by its name or by another one', named('use Rattle.a.specs.B\nuse Rattle.a.specs.C as d\n') == [
        ('Rattle.a.specs.B', None, None), ('Rattle.a.specs.C', None, 'd')]
    yield 'some are passed on', [it.is_public for it in imports_of('pub use Rattle.a.specs.B.{c}\nuse Rattle.a.specs.B.{d}\n')] == [True, False]
    yield 'what stands below is no import', imports_of('-- words of use x.{a}\n  open m use {words, before}\nf use = use\n') == []


def of_modules(modules):
    """The cases of which modules name which, and of imports in a copy."""
    yield 'a name is declared where it is', modules.origin('Rattle.low.specs.Base', 'base') == ('specs.Base', ['base'])
    yield 'or where the module has it from', modules.origin('Rattle.low.proofs.Common', 'base') == ('specs.Base', ['base'])
    yield 'by the name that it has there', modules.origin('Rattle.low.proofs.Common', 'Nearness') == ('specs.Near', ['IsNear'])
    yield 'a constructor is declared with its type', modules.origin('Rattle.low.specs.Base.Space', 'Pool') == ('specs.Base', ['Space', 'Pool'])
    yield 'what the module has from another crate is none of this one', modules.origin('Rattle.low.proofs.Common', 'ℕ') is None
    yield 'nor is what the prover makes', modules.origin('Rattle.low.proofs.law.near.Goals', None) is None
    near = law_of(modules.crate, 'law::near').imports()

    def copied(changed, imports=near):
        """The names of what is copied, by modules."""
        return {module: sorted(sorted(it.names) for it in parts) for module, parts in modules.copied(changed, imports).items()}

    yield 'those are copied that depend on the changed one and that the law needs', copied('specs.Base') == {
        'specs.Base': [['base']], 'specs.Near': [['IsNear']], 'proofs.Near': [['near']]}
    yield 'and no more where another one is changed', copied('specs.Near') == {'specs.Near': [['IsNear']], 'proofs.Near': [['near']]}
    yield 'nor what only other laws need', copied('specs.Far') == {}
    yield 'a type is copied with its parts, for each name of its own', [copied('specs.Far', imports_of(f'use Rattle.low.specs.{it}\n')) for it in (
        'Far.{Kind}', 'Far.Kind.{One}', 'Far.{Pair}')] == [{'specs.Far': [['Kind', 'One', 'Two']]}] * 2 + [
        {'specs.Far': [['Kind', 'One', 'Two'], ['Pair', 'first', 'second']]}]
    whole = modules.copied('specs.Base', near)
    yield 'an import is split between the crate and the copy', modules.rewritten(modules.above['proofs.Near'], whole, 'wrong_0', {'Is', 'base'}) == (
        'use Rattle.low.proofs.Common.{ℕ, ◌≡◌}\nuse Rattle.low.specs.wrong_0_Base.{base}\n'
        'use Rattle.low.specs.wrong_0_Near.{IsNear as Is}\nuse Rattle.low.proofs.Apart.{apart}\n')
    yield 'of the copy no more is imported than is used', 'wrong_0_Base' not in modules.rewritten(modules.above['proofs.Near'], whole, 'wrong_0', {'Is'})
    yield 'a module of the copy keeps the name that it had here', modules.rewritten(
        'use Rattle.low.specs.Base as far\nuse Rattle.low.specs.Near\n', whole, 'wrong_0') == (
        'use Rattle.low.specs.wrong_0_Base as far\nuse Rattle.low.specs.wrong_0_Near as Near\n')
    yield 'what is passed on is passed on', modules.rewritten('pub use Rattle.low.specs.Base.{base}\n', whole, 'wrong_0') == (
        'pub use Rattle.low.specs.wrong_0_Base.{base}\n')
    for text in (FILES['specs/Base.antt'], FILES['specs/Near.antt'], 'use Rattle.low.specs.Base as far\nuse Rattle.low.specs.Near\n'):
        yield f'nothing changes where nothing is copied: {text[:30]}', modules.rewritten(text, {}, 'wrong_0') == text


# A module with declarations of each kind.
PARTS = '''\
-- The module.
use Rattle.low.specs.Base.{base}

-- one of several lines
abbrev pub plain : ℕ →
    ℕ
plain zero = base
plain (suc n) = record {
  one = 1;
}
  where
    within : ℕ
    within = 1

unfolding_it : ℕ
unfolding plain
unfolding_it = base

-- a block
module _ (e : ℕ)
    (f : ℕ) where
  inside deep : ℕ
  inside = e

  module _ (g : ℕ) where
    pub deeper : ℕ
    deeper = g.other

pub record Held (e : ℕ)
    (f : ℕ) : Type 0 where
  -- a field
  pub held : ℕ
'''


def of_parts():
    """The cases of declarations that are found in a module."""
    above, parts = parts_of(PARTS)
    yield 'nothing of a module is lost', above + ''.join(it.text for it in parts) == PARTS
    yield 'its declarations are found, with what they declare', [sorted(it.names) for it in parts] == [
        [], ['plain'], ['unfolding_it'], ['deep', 'deeper', 'inside'], ['Held', 'held']]
    yield 'a comment stands above what it belongs to', parts[3].text.startswith('-- a block\nmodule _') and 'block' not in parts[2].text
    yield 'words are those of the text, and not of comments', {'base', 'zero', 'one', 'within'} <= parts[1].words and 'several' not in parts[1].words
    yield 'a word after a dot is one by itself', {'g', 'other'} <= parts[3].words


def of_laws(crate):
    """The cases of laws that an edit may name."""
    law = law_of(crate, 'law::near')
    yield 'a law has its text, its types and its answers', law == Law(
        'law', 'near', 'pub fn near()\n    ensures { IsNear }\n{}',
        [Import('Rattle.low.specs.Near', 'IsNear', 'IsNear', False)], FILES['proofs/law/near/Answers.antt'])
    yield 'or the types of several clauses', [it.name for it in law_of(crate, 'law::far').types] == ['AreAll', 'IsFar']
    wide = law_of(crate, 'law::wide')
    yield 'and of a clause of two lines, with its operators', [it.here for it in wide.types] == ['AreAll', 'IsFar', 'ℕ', '◌≡◌'] and (
        wide.text.endswith('n ≡ 1\n        → IsFar }\n{}'))
    yield 'of a module that its answers import whole those are needed that they name', [
        (it.path, it.name) for it in wide.imports_of_answers() if not it.path.endswith('.Goals')] == [
        ('Rattle.low.proofs.Far', 'far'), ('Rattle.low.proofs.Far', 'apart')]
    for path in ('law::code', 'law::nowhere', 'other::near', 'near', '::near'):
        try:
            yield f'there is no law {path}', law_of(crate, path) is None
        except NoLaw as why:
            yield f'there is no law {path}', path in str(why)


def of_copies(crate, room):
    """The cases of copies that are written."""
    definitions.write(room / 'src/wrong_0.rt', 'of a round before')
    definitions.copy_crate(crate, room)
    yield 'the crate is copied as it is, with its code', all((room / path).read_text() == text for path, text in FILES.items())
    yield 'nothing of a round before is left', not (room / 'src/wrong_0.rt').exists()
    modules = Modules(crate)
    Copy('wrong_0', law_of(crate, 'law::near'), 'specs.Base', [('specs/Base.antt', 'base = 1', 'base = 2')]).write(modules, room)
    yield 'the changed file is changed in the copy', (room / 'specs/wrong_0_Base.antt').read_text() == (
        '-- The base.\nuse Rattle.std.specs.Prelude.{ℕ, ◌≡◌}\npub base : ℕ\nbase = 2\n') and (room / 'specs/Base.antt').read_text() == FILES['specs/Base.antt']
    yield 'what depends on it names the copy', 'use Rattle.low.specs.wrong_0_Base.{base}\n' in (room / 'specs/wrong_0_Near.antt').read_text()
    yield 'so do the proofs that the law needs, and no others stand there', (room / 'proofs/wrong_0_Near.antt').read_text() == (
        'use Rattle.low.proofs.Common.{ℕ, ◌≡◌}\nuse Rattle.low.specs.wrong_0_Base.{base}\n'
        'use Rattle.low.specs.wrong_0_Near.{IsNear as Is}\nuse Rattle.low.proofs.Apart.{apart}\npub near : Is\nnear = near_as base\n\n')
    yield 'the copies are modules of the crate', (room / 'specs/Lib.antt').read_text() == (
        FILES['specs/Lib.antt'] + 'pub mod wrong_0_Base\npub mod wrong_0_Near\n') and (
        (room / 'proofs/Lib.antt').read_text() == FILES['proofs/Lib.antt'] + 'pub mod wrong_0_Near\n')
    yield 'the law is a function of a module of its own', (room / 'src/wrong_0.rt').read_text() == (
        'ghost use Rattle.low.specs.wrong_0_Near.{IsNear};\n\npub fn near()\n    ensures { IsNear }\n{}\n') and (
        (room / 'src/lib.rt').read_text().endswith('\npub mod wrong_0;\n'))
    yield 'its answer is that of the copy', (room / 'proofs/wrong_0/near/Answers.antt').read_text() == (
        'use Rattle.low.proofs.wrong_0_Near.{near}\nuse Rattle.low.proofs.wrong_0.near.Goals as goal\n\n'
        'pub returns : goal.returns\nreturns c = near\n')


    text = '-- one of the types\nabbrev pub IsFar : Type 0\nIsFar = far.base ≡ 1 × (Pair One ≡ Pair One)\n'
    Comparisons('equal_0', 'specs.Far', [text]).write(modules, room)
    yield 'a changed definition stands beside the one before, and imports what else the file declares', (
        room / 'specs/equal_0_Far.antt').read_text() == (
        'use Rattle.low.specs.Base as far\nuse Rattle.std.specs.Prelude.{◌≡◌}\nuse Rattle.low.specs.Far.Kind.{One}\n'
        'use Rattle.low.specs.Far.{Pair}\n'
        f'use Rattle.low.specs.Far as before\n\n{text}\nabbrev pub AreEqual0 : Type 0\n'
        'AreEqual0 = (IsFar → before.IsFar) × (before.IsFar → IsFar)\n')
    yield 'a function without code is asked', (room / 'src/equal_0.rt').read_text() == (
        'ghost use Rattle.low.specs.equal_0_Far.{AreEqual0};\n\npub fn is_equal_0()\n    ensures { AreEqual0 }\n{}\n')
    Comparisons('equal_1', 'specs.Base', ['unfoldable pub base : ℕ\nbase = 2\n']).write(modules, room)
    yield 'what has to be unfolded by its name is', (room / 'src/equal_1.rt').read_text().splitlines()[2] == (
        '#[tactic(auto, unfolding(crate::specs::equal_1_Base::base, crate::specs::Base::base))]')


def edit(name, law, file='specs/Base.antt'):
    return edits.Edit(name, {law: None}, [(file, 'base = 1', 'base = 2')])


def of_rounds(crate, room):
    """The cases of edits that are tried together."""
    asked = []

    def tried(members, said, why=None):
        """The names of edits with faults and the faults, where a check says this."""
        def check(marks):
            asked[:] = marks
            return why, said
        return definitions.try_edits(crate, room, members, check)

    one, two = edit('one', 'law::near'), edit('two', 'law::near')
    refused = REFUSED + BEHIND + NOT_PROVED
    yield 'an edit is refused beside its copy without a change', tried([one], refused + PROVED) == [] and asked == ['wrong_0', 'right_0', 'equal_0']
    yield 'edits of one file and one law share that', tried(
        [one, two], (refused + refused.replace('wrong_0', 'wrong_1')) + PROVED) == [] and asked == ['wrong_0', 'wrong_1', 'right_0', 'equal_0', 'equal_1']
    yield 'each is judged by itself', [name for name, _ in tried([one, two], refused + PROVED)] == ['two']
    wrong = tried([one, two], refused + refused.replace('wrong_0', 'wrong_1') + PROVED.replace('proved', 'not proved'))
    yield 'where the copy without a change is not proved, each of them fails', [name for name, _ in wrong] == ['one', 'two'] and all(
        'without the change the law is not proved' in text for _, text in wrong)
    equal = 'fn low::equal_0::is_equal_0: proved\n'
    wrong = tried([one, two], refused + refused.replace('wrong_0', 'wrong_1') + PROVED + equal)
    yield 'an edit that the search shows to be equal to what was there is not refused', [name for name, _ in wrong] == ['one'] and (
        'the definition is equal to the one before' in wrong[0][1])
    for said in (equal.replace('proved', 'not proved'), equal.replace('proved', 'no proof: expected answers'), ''):
        yield f'and one that it does not show so is: {said}', tried([one], refused + PROVED + said) == []
    wrong = tried([one], refused + PROVED, 'the check ended with status 3')
    yield 'a check without a verdict refuses nothing', [name for name, _ in wrong] == ['one'] and 'ended with status 3' in wrong[0][1]
    for it in (edit('bad', 'law::none'), edit('bad', 'law::far', 'specs/Near.antt')):
        wrong = tried([it, one], refused + PROVED)
        yield f'an edit of a law that is none, or does not need the file, is bad: {[*it.refused]}', [
            (name, 'low/bad: bad edit: ' in text) for name, text in wrong] == [('bad', True)]
    yield 'nothing is checked where no edit is left', tried([edit('bad', 'law::none')], '')[0][0] == 'bad'


def of_judging():
    """The cases of what a check says of a law over a copy."""
    law = Law('law', 'near', '', [], '')
    copy, same = Copy('wrong_0', law, 'specs.Base', []), Copy('right_0', law, 'specs.Base', [])
    yield 'a proof that the change breaks refuses', copy.why_not('low', REFUSED + BEHIND + NOT_PROVED) == []
    for name, (instead, reason) in NOT_REFUSED.items():
        yield f'{name} does not refuse', reason in '\n'.join(copy.why_not('low', instead + BEHIND + NOT_PROVED))
        if instead:
            beside = copy.why_not('low', REFUSED + instead + BEHIND + NOT_PROVED)
            yield f'nor does it beside another proof, if it is of this copy: {name}', bool(beside) == ('wrong_01' not in instead)
    for line in ('', 'fn low::wrong_0::near: proved\n', 'fn low::wrong_0::near: could not tell\n', 'fn low::wrong_01::near: not proved\n',
                 'fn low::wrong_0::near: no proof: expected answers\n'):
        yield f'nor a law that is not refused: {line}', 'the law is not refused' in '\n'.join(copy.why_not('low', REFUSED + line))
    yield 'a copy without a change is right where its law is proved', same.why_wrong('low', REFUSED + PROVED) == []
    error = REFUSED.replace('wrong_0', 'right_0')
    for said in ('', PROVED.replace('proved', 'not proved'), error + PROVED):
        yield f'and wrong where it is not: {said[:60]}', same.why_wrong('low', said) != []


def of_edits():
    """The cases of edits of definitions that are read."""
    change = 'old: a\nnew: b\n'

    def read(text):
        """The functions of an edit with this text and their goals, and whether it is one of a definition, or nothing where it
        is bad."""
        try:
            found = edits.read_edit('named', text.splitlines())
            return found.refused, found.is_of_definition()
        except edits.BadEdit:
            return None

    yield 'an edit of a definition names its law', read(f'refused: law::near\nfile: specs/Base.antt\n{change}') == ({'law::near': None}, True)
    yield 'it may change one file twice', read(f'refused: law::near\nfile: specs/Base.antt\n{change}{change}') is not None
    yield 'an edit with a goal is one of code', read(f'refused: a::f\nby: returns\nfile: specs/Base.antt\n{change}') == ({'a::f': 'returns'}, False)
    for what, text in {
            'of code names a goal': f'refused: a::f\nfile: src/a.rt\n{change}',
            'of a definition names one law': f'refused: law::near\nrefused: law::far\nfile: specs/Base.antt\n{change}',
            'of a definition names no function beside it': f'refused: a::f\nby: returns\nrefused: law::far\nfile: specs/Base.antt\n{change}',
            'of a definition changes no other file': f'refused: law::near\nfile: specs/Base.antt\n{change}file: specs/Far.antt\n{change}',
            'names a law': f'file: specs/Base.antt\n{change}'}.items():
        yield f'an edit {what}', read(text) is None


def main():
    passed = failed = 0
    for name, holds in cases():
        if holds:
            passed += 1
        else:
            failed += 1
            print(f'failed: {name}')
    print(f'{passed} passed, {failed} failed')
    return failed != 0


if __name__ == '__main__':
    sys.exit(main())
