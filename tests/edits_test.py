#!/usr/bin/env python3
"""Tests how tests/edits.py judges what a check says: each kind of text that refuses an edit, and each that doesn't.

The texts are those of the prover, of checks of this repository's crates with a function turned; long ones are cut.
The last line is 'N passed, M failed'.
"""
import os
import signal
import sys
import tempfile
import threading
import time
from pathlib import Path

sys.path.insert(0, str(Path(__file__).resolve().parent))
import edits  # noqa: E402
from bodies import Function, functions_of  # noqa: E402

# What is said of a try that doesn't fit, of one that finds nothing, and after all of the function.
MISFIT = '''\
./proofs/a/f/Answers.antt:6:124: error: `{goal}`: as printed, the two types first differ where one has `0` (expected)
  and the other has `A = Rattle.low.specs.A.Pair` (found)
  computed as far as they go, the two types differ only where one has `c.g.result` (expected) and the other has `1`
'''
NOT_FOUND = '''\
./proofs/a/f/Answers.antt:19:11: error: `{goal}`: `search`: no proof of `Rattle.low.specs.A.IsLeast c.args.k` was found.
  Every way was tried: a deeper search would find nothing either
'''
STOPPED = '''\
./proofs/a/f/Answers.antt:16:12: error: `{goal}`: `grind` stopped at its own limit of case splits, so the goal may hold
'''
# What is said where values break the goal: by the search that is one of numbers, and by the other one that asked it.
BROKEN = '''\
./proofs/a/f/Answers.antt:16:12: error: `returns`: `grind`: the goal does not follow. The hypotheses hold, and the goal fails at
  `c.args.k` = `1`. The part of the goal that is false there is `given.leb 2 c.args.k`
'''
FOUND_BROKEN = '''\
./proofs/a/f/Answers.antt:16:12: error: `returns`: `search`: no proof of `given.leb 2 c.args.k` was found. `grind` was asked too,
  since the list holds `arith`. In its own words: `grind`: the goal does not follow.
  The hypotheses hold, and the goal fails at `c.args.k` = `1`
'''
NOT_PROVED = 'fn low::a::f: not proved; it stands on `Rattle.low.proofs.a.f.Answers.returns`, which antt refuses\n'
NO_MEASURE = '''\
fn low::a::f: no proof: expected a measure in ./proofs/a/f/Invariants.antt; it calls `low::a::g`, which is not proved
'''
GOALS = {
    'a goal of what the function ensures': 'returns',
    'a goal of one clause': 'returns-in-true-clause-count',
    "a goal of a type's invariant": 'invariant_of-self',
    "a goal of a loop's invariant": 'loop-index-preserved',
    'what a called function requires': 'make-requires-2-clause-due',
}
NO_GOALS = ('overflow_add-result', 'overflow_cast-stages', 'index-requires', 'unwrap-requires', 'loop-at-smaller')
# What is said of one try in place of what is said of it where it doesn't fit, and the reason that is given.
NOT_REFUSED = {
    'a try of which nothing is said': ('', 'its goal is proved, or is none: returns'),
    'an answer that names a field that is gone': (
        './proofs/a/f/Answers.antt:10:26: error: `returns`: record `Rattle.low.proofs.a.f.Lts.After-g` (nearest: .self)\n'
        '  has no field `self`. A record further in has one: write `.before.self` in place of `.self`\n',
        'an answer names what is gone'),
    'an answer of a goal that is gone': (
        './proofs/a/f/Answers.antt:4:20: error: `returns`: `goal.returns`: module `Rattle.low.proofs.a.f.Goals` '
        'has no `returns`\n  that can be named from here\n', 'an answer names what is gone'),
    'a goal that is no name': (
        './proofs/a/f/Answers.antt:4:20: error: `returns`: `goal.returns` is no name\n', 'an answer names what is gone'),
    'a run out of steps': (
        './proofs/a/f/Answers.antt:4:20: error: `returns`: antt ran out of the steps that it may take\n',
        'a run out of steps'),
    'a fault of a file of answers': (
        NOT_FOUND.format(goal='returns') + './proofs/a/f/Answers.antt:4:20: error: a `use` line stands at the top\n',
        'a fault of a proof file'),
    'a fault of an invariant': (
        NOT_FOUND.format(goal='returns') + './proofs/a/f/Invariants.antt:4:20: error: `x` is not in scope\n',
        'a fault of a proof file'),
    'a function of which the check could not say': (
        NOT_FOUND.format(goal='returns') + 'fn low::a::f: could not tell\n', 'no verdict'),
}


def edit(goal='returns'):
    return edits.Edit('turned', {'a::f': goal}, [('src/lib.rt', 'old', 'new')])


def said_of(goal):
    """What a check says where neither the written answer nor the calls prove the goal."""
    return MISFIT.format(goal=f'{goal}-as-written') + NOT_FOUND.format(goal=goal) + NOT_PROVED


def judged(said, status=1, goal='returns', written=True, way=edits.TRIES):
    """What is wrong with the one edit of a round, and whether it is in doubt, by what its check says, where an answer of
    its goal is written or not."""
    read, edits.answers_of = edits.answers_of, lambda crate, function: written * f'pub {goal} : goal.{goal}\n{goal} c = c.it\n'
    found, doubts = edits.try_round('low', [edit(goal)], status, said, way)
    edits.answers_of = read
    return [text for _, text in found], [it.asked() for it in doubts] == [{'a::f': goal}]


def faults(*words, **others):
    """What is wrong with the one edit of a round."""
    return judged(*words, **others)[0]


# Answers of two clauses, of which the second stands by a definition beside them.
ANSWERS = '''\
use Rattle.low.proofs.a.f.Goals.{in-Ok, in-Err}
use Rattle.low.proofs.a.f.Goals as goal

-- The first.
pub returns-clause-at : goal.returns-clause-at
returns-clause-at g c = elim c.branch (
    in-Err
)

    c.more

abbrev first : Bool → Bool
first true = false
first false = true

pub returns-clause-at-2 : goal.returns-clause-at-2
returns-clause-at-2 g c = first in-Ok
'''
ASKED = '''\
use Rattle.std.proofs.Common as given
use Rattle.std.proofs.lemmas.Grind as sets
use Rattle.low.proofs.a.f.Goals.{in-Ok}
use Rattle.low.proofs.a.f.Goals as goal

-- The first.

abbrev first : Bool → Bool
first true = false
first false = true

returns-clause-at-2-as-written : goal.returns-clause-at-2
returns-clause-at-2-as-written g c = first in-Ok
pub returns-clause-at-2 : goal.returns-clause-at-2
returns-clause-at-2 g c = first_of (
    search (given.tests, given.rules),
    grind (given.arith, sets.common_steps) steps 2000000,
)

'''


def cases():
    """Each case: its name, and whether it holds."""
    for name, goal in GOALS.items():
        yield f'{name} refuses', faults(said_of(goal), goal=goal) == []
    yield 'a loop without a measure refuses', faults(NO_MEASURE, goal='measure') == []
    yield 'a loop with its measure does not refuse', 'its loops have their measures' in '\n'.join(
        faults('fn low::a::f: no holes', goal='measure'))
    misfit, none = MISFIT.format(goal='returns-as-written'), NOT_FOUND.format(goal='returns')
    yield 'a search that stopped at a limit refuses', faults(misfit + STOPPED.format(goal='returns') + NOT_PROVED) == []
    for name, (instead, reason) in NOT_REFUSED.items():
        wrong = '\n'.join(faults(misfit + instead + NOT_PROVED))
        yield f'{name} does not refuse', 'low/turned: a::f is not refused' in wrong and reason in wrong
    for what, said in ((f'returns-as-written', none), ('returns', misfit)):
        yield f'a goal that is proved by {what} does not refuse', f'its goal is proved, or is none: {what}' in '\n'.join(
            faults(said + NOT_PROVED))
    for written in (True, False):
        has = 'an answer is' if written else 'none is'
        for said in (BROKEN, FOUND_BROKEN):
            yield f'a goal that values break is beyond doubt where {has} written: {said[50:80]}', judged(
                misfit + said + NOT_PROVED, written=written) == ([], False)
        for said in (none, STOPPED.format(goal='returns')):
            yield f'and one that the calls leave open alone is not: {has}, {said[50:80]}', judged(
                misfit + said + NOT_PROVED, written=written) == ([], True)
    yield 'one that is not refused is in no doubt', judged(NOT_PROVED, written=False)[1] is False
    yield 'a measure is beyond doubt', judged(NO_MEASURE, goal='measure', written=False) == ([], False)
    own = 'fn low::a::f: no proof: expected answers; `search` did not prove `overflow_add`, `returns`; it calls `low::a::g`'
    yield "a goal that the prover's own search leaves refuses", judged(own, way=edits.SEARCH) == ([], False)
    for said in (own.replace(', `returns`', ''), 'fn low::a::f: no holes', none + NOT_PROVED):
        yield f'and none that it does not leave: {said[:60]}', "the prover's own search leaves others" in '\n'.join(
            faults(said, way=edits.SEARCH))
    for left, is_left in (('returns-clause-value', True), ('returns-in-Ok-clause-value', False)):
        yield f'a goal of several clauses is left where one of them is: {left}', judged(
            own.replace('`returns`', f'`{left}`'), way=edits.SEARCH)[0] == [] if is_left else faults(
            own.replace('`returns`', f'`{left}`'), way=edits.SEARCH) != []
    yield 'nor one that it leaves without a verdict', 'no verdict' in '\n'.join(
        faults(own + '; antt ran out of the steps that it may take', way=edits.SEARCH))
    gone = './proofs/a/f/Answers.antt:4:20: error: `other`: `goal.other`: module `Rattle.low.proofs.a.f.Goals` has no `other`\n'
    yield 'where a hole is one of no goal, the search is asked without any', judged(
        gone + NOT_PROVED, way=edits.SEARCH) == ([], True)
    yield 'and once', judged(gone + NOT_PROVED, way=edits.BARE)[1] is False and judged(own, way=edits.BARE) == ([], False)
    for status in (2, 3, -9):
        wrong = '\n'.join(faults(said_of('returns'), status))
        yield f'a check that ends with {status} refuses nothing', f'low/turned: the check' in wrong and (
            f'ended with status {status}' in wrong)
    yield 'one that is killed says what its bound is', 's of a processor' in '\n'.join(faults('', -9))
    yield 'what such a check said last is shown', 'no such library' in '\n'.join(faults('no such library', 2))
    other = MISFIT.format(goal='returns').replace('/a/f/', '/a/g/')
    yield 'an answer that does not fit, of a function that no edit turns, is a fault', any(
        'low: a::g has faults' in it for it in faults(said_of('returns') + other))
    yield 'a goal of such a function that nothing is tried at is none', faults(
        said_of('returns') + 'fn low::a::g: no proof: expected answers; `#[tactic(none)]` leaves `returns`') == []
    yield from of_asking()
    yield from of_counts()
    yield from of_runs()
    yield from of_turns()
    yield from of_libraries()


def of_asking():
    """The cases of a file of answers in which goals are asked for."""
    asked = edits.asking(ANSWERS, 'low', 'a::f', ['returns-clause-at-2'])
    yield 'the answer that is written is tried by another name, and the search by the goal\'s', asked == ASKED
    asked = edits.asking(ANSWERS, 'low', 'a::f', ['returns-clause-at'])
    yield 'an answer of several lines is tried whole', (
        'returns-clause-at-as-written : goal.returns-clause-at\nreturns-clause-at-as-written g c = elim c.branch (\n'
        '    in-Err\n)\n\n    c.more\n' in asked)
    yield 'the others go, and what they alone name is not imported', asked.count('returns-clause-at-2') == 0 and (
        'in-Ok' not in asked and 'Goals.{in-Err}\n' in asked)
    asked = edits.asking(ANSWERS.replace('first in-Ok', 'first (returns-clause-at in-Ok)'), 'low', 'a::f', ['returns-clause-at-2'])
    yield 'an answer that another one names is a hole', (
        'pub returns-clause-at : goal.returns-clause-at\nreturns-clause-at = ?\n' in asked)
    asked = edits.asking('', 'low', 'a::f', ['returns', 'invariant_of-self'])
    yield 'goals are asked for where the function has no file of answers', (
        'use Rattle.low.proofs.a.f.Goals as goal\n' in asked and 'pub returns : goal.returns\nreturns c = first_of (' in asked
        and 'pub invariant_of-self : goal.invariant_of-self\ninvariant_of-self c = first_of (' in asked)
    yield 'a measure is no goal', 'measure' not in edits.asking(ANSWERS, 'low', 'a::f', ['measure'])
    by_search = 'use Rattle.std.proofs.Common.{rules, tests}\n\npub returns : goal.returns\nreturns c = search (tests, rules)\n'
    asked = edits.asking(by_search, 'low', 'a::f', ['returns'])
    yield 'a call that is the written answer is tried once', asked.count('search (') == 1 and (
        '\nreturns-as-written c = search (tests, rules)\n' in asked
        and '\nreturns c = grind (given.arith, sets.common_steps) steps 2000000\n' in asked)
    yield 'a goal without a call is a hole', '\nreturns c = ?\n' in edits.asking('', 'low', 'a::f', ['returns'], ())
    bare = edits.answers_for(ANSWERS, 'low', 'a::f', ['returns-clause-at-2'], edits.SEARCH)
    yield 'for the prover\'s own search the other answers are holes, and the asked one is none', bare == (
        'use Rattle.low.proofs.a.f.Goals as goal\n\npub returns-clause-at : goal.returns-clause-at\nreturns-clause-at = ?\n')
    yield 'or there are none', edits.answers_for(ANSWERS, 'low', 'a::f', ['returns-clause-at-2'], edits.BARE) == ''
    yield from of_bodies()


# Functions with and without clauses, some without a body, one of a constant, and one with a line of its own.
CODE = '''\
// The first.
#[inline(always)]
pub(crate) fn f() -> u64 {
    1
}

pub fn law()
    ensures { is_law };

pub const fn size() -> usize
    ensures { result ≡ 8 }
{
    8
}

impl A {
    pub fn g(&self) -> u64
        requires { self.now ≡ 2 }
        ensures {
            result ≡ 2
        }
    {
        if self.is_all() {
            return self.all(|it| it.g());
        }
        2
    }
}

impl<T: Drop> Loads for Made<T> {
    #[tactic(auto, unfolding(crate::specs::A::a))]
    fn h(&mut self) -> u64 {
        3
    }
}
'''
# The same where something is asked of `g` alone.
EMPTIED = CODE.replace('    1\n', '    crate::never()\n').replace('        3\n', '    crate::never()\n')


def of_bodies():
    """The cases of functions that are found in code, and of which bodies stand empty."""
    found = [*functions_of('src/a.rt', CODE)]
    yield 'the functions with bodies are found, with their types', [it.names for it in found] == [
        ['f'], ['size'], ['A', 'g'], ['Made', 'h']]
    yield 'each with its body', [CODE[it.begin:it.end].strip()[:10] for it in found] == ['1', '8', 'if self.is', '3']
    yield 'one is constant, and one has a line of its own', [(it.is_const, it.has_tactic) for it in found] == [
        (False, False), (True, False), (False, False), (False, True)]
    f, _, g, h = found
    for it, path, holds in ((f, 'a::f', True), (f, 'b::f', False), (f, 'a::A::f', False), (f, 'a::fn::f::all', True),
                            (g, 'a::A::g', True), (g, 'b::A::g', True), (g, 'a::g', False), (g, 'a::A::g_all', False), (g, 'a::fn::A::g::all+FnMut::call_mut', True),
                            (h, 'a::MadeLoads::h', True), (h, 'a::A::h', False)):
        yield f'{it.names[-1]} is {"" if holds else "not "}at {path}', it.is_at(path.split('::')) == holds
    top = Function('src/lib.rt', ['f'], 0, 0, 0, False, False)
    yield 'a function of the root is at its name', top.is_at(['f']) and not top.is_at(['a', 'f'])
    with tempfile.TemporaryDirectory() as room:
        crate = Path(room)
        for path, text in (('src/a.rt', CODE), *[(f'proofs/a/{it}', '') for it in (
                'f/Answers.antt', 'A/g/Answers.antt', 'fn/A/g/all/Answers.antt', 'MadeLoads/h/Invariants.antt', 'Lemmas.antt')]):
            (crate / path).parent.mkdir(parents=True, exist_ok=True)
            (crate / path).write_text(text, encoding='utf-8')

        def text_of(places, asked, searched):
            """The code with what is changed in it, where these places are turned and these functions are asked of."""
            text = CODE
            for _, begin, end, new in sorted(edits.emptied(crate, places, asked, searched), reverse=True):
                text = text[:begin] + new + text[end:]
            return text

        yield 'the others stand empty', text_of([], ['a::A::g'], []) == EMPTIED
        yield 'their answers and invariants go', sorted(str(it.relative_to(crate)) for it in crate.glob('proofs/**/*.antt')) == [
            'proofs/a/A/g/Answers.antt', 'proofs/a/Lemmas.antt', 'proofs/a/fn/A/g/all/Answers.antt']
        yield 'nothing is searched for where goals are asked', text_of([], ['a::A::g'], ['a::A::g']) == EMPTIED.replace(
            '    pub fn g', '#[tactic(none)]\n    pub fn g')
        at = CODE.index('1\n')
        yield 'a turned function is not empty', '    1\n' in text_of([('src/a.rt', at, at + 1, '2')], ['a::A::g'], [])
        yield 'one with a line of its own keeps that', text_of([], ['a::MadeLoads::h'], ['a::MadeLoads::h']).count('#[tactic(') == 1


def of_turns():
    """The cases of names that are tried side by side, beside a command and alone."""
    edits.PAUSE = 0.01
    most, now, lock = [0], [0], threading.Lock()

    def call(name):
        return name.upper()

    def at_once(count):
        """A call that waits for others, until so many are under way."""
        most[0], together = 0, threading.Barrier(count, timeout=60)

        def counted(name):
            with lock:
                now[0] += 1
                most[0] = max(most[0], now[0])
            together.wait()
            with lock:
                now[0] -= 1
            return call(name)

        return counted

    names = ['a', 'b', 'c', 'd', 'e', 'f']
    every = {it: it.upper() for it in names}
    yield 'each name has its answer', edits.in_turns(names, 3, lambda it: True, lambda: False, at_once(3)) == every
    yield 'so many are tried at once', most == [3]
    yield 'each name has its answer beside a command', edits.in_turns(
        names, 3, lambda it: True, lambda: True, at_once(2)) == every
    yield 'two are tried at once beside a command', most == [2]
    asked = []

    def is_ready(name):
        asked.append(name)
        return name != 'b' or len(asked) > 20

    yield 'a name waits until it is ready', edits.in_turns(['a', 'b'], 2, is_ready, lambda: len(asked) < 30, call) == {'a': 'A', 'b': 'B'}
    yield 'a name that is not ready at the end has no answer', edits.in_turns(
        ['a', 'b'], 2, lambda it: it == 'a', lambda: False, call) == {'a': 'A'}


def of_libraries():
    """The cases of libraries that are copied while a command makes them."""
    with tempfile.TemporaryDirectory() as room:
        top, edits.TOP = edits.TOP, Path(room)
        edits.SETTLED = 3600
        ended, copies = Path(room) / 'ended', Path(room) / 'copies'
        copies.mkdir()

        def make(name, text, second):
            """Makes a library, whose file is last written to at this second."""
            made = Path(room) / 'crates' / name / 'out/rlib' / f'{name}.rlib'
            made.mkdir(parents=True, exist_ok=True)
            (made / 'format').write_text(text, encoding='utf-8')
            os.utime(made / 'format', (second, second))

        later = time.time() + 3600
        make('old', 'one', later)
        libraries = edits.Libraries(copies, ended)
        make('new', 'one', later)
        yield 'a library that was there before is not taken beside the command', not libraries.take('old')
        yield 'nor one that is seen for the first time', not libraries.take('new')
        yield 'nor one that is not seen to be the same for a while', not libraries.take('new')
        yield 'nor one that is not there', not libraries.take('none')
        edits.SETTLED = 0
        make('new', 'two', later + 1)
        yield 'nor one that is written again', not libraries.take('new')
        yield 'a library that the command has made is taken', libraries.has(['new']) and libraries.are_beside()
        make('new', 'three', later + 2)
        copy = (copies / 'new/new.rlib/format').read_text(encoding='utf-8')
        yield 'it is copied once', libraries.take('new') and copy == 'two'
        yield 'a command beside is left the processors', libraries.priority() == ['nice']
        ended.touch()
        yield 'after the command each library is taken that is there', libraries.has(['old', 'new']) and not libraries.has(['none'])
        yield 'and the processors too', libraries.priority() == [] and not libraries.are_beside()
        edits.TOP = top


def of_counts():
    """The cases of what is counted: each edit once, and each fault of no edit."""
    both = edits.Edit('both', {'a::f': 'returns', 'a::g': 'returns'}, [('src/lib.rt', 'old', 'new')])
    misfit = MISFIT.format(goal='returns').replace('/a/f/', '/a/h/')
    wrong, _ = edits.try_round('low', [edit()], 1, BROKEN + NOT_PROVED + misfit)
    yield 'an edit passes beside a fault of a function that no edit turns, which fails', edits.counted([edit()], wrong) == (1, 1)
    wrong, _ = edits.try_round('low', [both], 0, 'fn low::a::f: no holes')
    yield 'an edit that two functions let through fails once', len(wrong) == 2 and edits.counted([both], wrong) == (0, 1)
    with tempfile.TemporaryDirectory() as room:
        crate = Path(room) / 'low'
        (crate / 'src').mkdir(parents=True)
        (crate / 'src/lib.rt').write_text('old twice twice\n', encoding='utf-8')
        text = ''.join(f'edit: {name}\nrefused: a::f\nby: returns\nfile: src/lib.rt\n{change}\n\n' for name, change in (
            ('fit', 'old: old\nnew: new'), ('double', 'old: twice\nnew: once'), ('gone', 'old: gone\nnew: there'),
            ('idle', 'old: old\nnew: old'), ('cut', 'old: old'), ('half', 'old: old\nnew: new\nold: twice')))

        def read(text):
            """The names of the edits in a file with this text, and of those that are none."""
            (crate / 'edits.txt').write_text(text, encoding='utf-8')
            found, bad = edits.edits_of(crate)
            return [it.name for it in found], [name for name, why in bad if why.startswith(f'low/{name}: bad edit: ')]

        first, second = edits.Edit('one', {'a::f': 'returns'}, []), edits.Edit('two', {f'a::g{k}': 'returns' for k in range(edits.ROUND)}, [])
        yield 'a round has so many functions at most', edits.first_round([first, second], crate)[0] == [first]
        yield 'or one edit', edits.first_round([second, first], crate)[0] == [second]
        again = edits.replace(second, doubtful=frozenset(['a::g0']))
        yield 'of which those count that are asked', edits.first_round([first, again], crate)[0] == [first, again]
        names = ['double', 'gone', 'idle', 'cut', 'half', 'unread']
        yield 'an edit that fits is read beside bad ones, each of which is named', read(
            f'{text}edit: unread\nnothing of an edit\n') == (['fit'], names)
        yield 'a file of no edit has none', read('') == ([], [])
        fit = text[:text.index('edit: double')]
        yield 'lines above the first name are none of an edit', read(f'refused: a::f\n{fit}') == (['fit'], [''])
        yield 'a name is that of one edit', read(fit + fit) == (['fit'], ['fit'])
        yield 'an edit has a name', read(fit.replace('edit: fit', 'edit: ')) == ([], [''])
        (crate / 'edits.txt').write_text(f'{text}edit: unread\nnothing of an edit\n', encoding='utf-8')
        found, bad = edits.edits_of(crate)
        yield 'bad edits fail, and take nothing from one that passes', edits.counted(found, bad) == (1, 6)


def of_runs():
    """The cases of commands that are run, and of edits that are read."""
    with tempfile.TemporaryDirectory() as room:
        yield 'the status of a command is seen', edits.run(['sh', '-c', 'echo said; exit 3'], room, 60) == (3, 'said\n')
        busy = 'echo said; while :; do :; done'
        yield 'a command is stopped when it has taken so much time of a processor', edits.run(
            ['sh', '-c', busy], room, 1) == (-signal.SIGKILL, 'said\n')
        yield 'so is one that it has started', edits.run(
            ['sh', '-c', f'sh -c "{busy}"; echo ended with $?'], room, 1)[1].endswith('ended with 137\n')
        yield 'and not when so much time has passed', edits.run(['sh', '-c', 'sleep 2.5; echo said'], room, 1) == (0, 'said\n')
        before = time.monotonic()
        yield 'what it has started ends with it', edits.run(['sh', '-c', 'sleep 60 & echo said'], room, 60) == (0, 'said\n') and (
            time.monotonic() - before < 30)
        change = 'file: src/lib.rt\nold: a\nnew: b\n'

        def read(above):
            """The functions of an edit with these lines above its change and their goals, or nothing where it is bad."""
            try:
                return edits.read_edit('named', (above + change).splitlines()).refused
            except edits.BadEdit:
                return None

        for goal in (*GOALS.values(), 'measure'):
            yield f'an edit may name {goal}', read(f'refused: a::f\nby: {goal}\n') == {'a::f': goal}
        for goal in NO_GOALS:
            yield f'an edit may not name {goal}', read(f'refused: a::f\nby: {goal}\n') is None
        yield 'an edit names a goal of each function', read('refused: a::f\nby: returns\nrefused: a::g\nby: measure\n') == {
            'a::f': 'returns', 'a::g': 'measure'}
        yield 'a function without a goal is bad', read('refused: a::f\n') is None
        yield 'so is one before another one', read('refused: a::f\nrefused: a::g\nby: returns\n') is None
        yield 'so is a goal without a function', read('by: returns\n') is None


def main():
    passed = failed = 0
    for name, holds in cases():
        if holds:
            passed += 1
        else:
            failed += 1
            print(f'failed: {name}')
    print(f'{passed} passed, {failed} failed')
    return failed != 0


if __name__ == '__main__':
    sys.exit(main())
