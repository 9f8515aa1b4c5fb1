#!/usr/bin/env python3
"""Tests what tests/unused.py takes for a definition, and for one that is used. The last line is 'N passed, M failed'."""
import sys
import tempfile
from pathlib import Path

sys.path.insert(0, str(Path(__file__).resolve().parent))
import unused  # noqa: E402
from definitions import write  # noqa: E402

FILES = {
    'low/src/lib.rt': '#[tactic(auto, using(crate::proofs::Lemmas::by_code, crate::proofs::Lemmas::rules))]\npub fn f() {}\n',
    'low/proofs/Lib.antt': 'pub mod Lemmas\npub mod Passing\n',
    'low/proofs/Lemmas.antt': '''\
use Rattle.std.proofs.Common.{ℕ}

-- only itself names it
pub alone : ℕ → ℕ
alone zero = alone zero
-- a comment names commented
alone (suc n) = n

commented : ℕ
commented = 1

by_code : ℕ
unfolding unfolded
by_code = n.taken
  where
    held : ℕ
    held = within

unfolded within : ℕ
unfolded = 1
within = 1

taken : ℕ
taken = chained

chained : ℕ
chained = 1

-- a block
module _ (e : In)
    (f : ℕ) where
  -- a comment at its left edge
  module _ (g : ℕ) where
    open f use {fields}
    pub deep : ℕ
    deep = e

  not_deep :
      ℕ
  not_deep = x

abbrev In : Type 0
In = ℕ

module _ (e : ℕ) where
  abbrev lonely : ℕ
  lonely = e

pub record Held (e : ℕ)
    (f : ℕ) : Type 0 where
  pub held : ℕ

-- stands between
◌beside◌ : ℕ → ℕ → ℕ
n beside m = n

◌apart◌ : ℕ → ℕ → ℕ
n apart m = n

pub ruleset rules = (rule_one, rule_two)

pub ruleset no_rules = (rule_one, rule_two)

rule_one : ℕ
rule_one = 1

rule_two : ℕ
rule_two = 2

two : ℕ
two = 2

two_more : ℕ
two_more = 2
''',
    'low/proofs/Passing.antt': 'pub use Rattle.low.proofs.Lemmas.{Held as Passed, not_deep}\n',
    'low/proofs/f/Answers.antt': 'use Rattle.low.proofs.Lemmas.{deep}\n\npub returns : goal.returns\nreturns c = deep c\n',
    'high/proofs/Above.antt': 'use Rattle.low.proofs.Passing.{Passed, not_deep}\nuse Rattle.low.proofs.Lemmas as low\n\nabove : Passed\nabove = 1 beside low.two\n'
                              'below : ℕ\nbelow = low.two_more\n',
    'high/proofs/g/h/Invariants.antt': 'use Rattle.high.proofs.Above.{above}\nuse Rattle.low.proofs.Lemmas.{◌beside◌}\n\npub I : goal.I\nI = record { fact = above beside 1 }\n',
}
UNUSED = ['◌apart◌', 'alone', 'below', 'chained', 'commented', 'lonely', 'no_rules', 'not_deep', 'taken', 'two_more']


def cases():
    """The name of each case, and whether it holds."""
    with tempfile.TemporaryDirectory() as room:
        for path, text in FILES.items():
            write(Path(room) / path, text)
        modules, by_code = unused.read(Path(room))
    found = unused.unused_in(modules, by_code)
    yield 'unused definitions are found, and no others', sorted(name for _, it in found for name in it.names) == sorted(UNUSED)
    lemmas = modules['low', 'proofs', 'Lemmas'].definitions
    lines = FILES['low/proofs/Lemmas.antt'].split('\n')
    yield 'each by its head', all(it.names[0] in lines[it.head] for it in lemmas)
    texts = {it.names[0]: '\n'.join(lines[it.first:it.end]) for it in lemmas}
    yield 'with its comment and all of its clauses', texts['alone'] == '\n'.join(lines[2:7])
    yield 'with what is local to it', texts['by_code'].endswith('held = within') and 'held' not in texts
    yield 'a field is no definition', 'held' not in {name for it in lemmas for name in it.names} and texts['Held'].endswith('pub held : ℕ')
    yield 'the blocks around it are known', [len(it.blocks) for it in lemmas if it.names[0] in ('deep', 'not_deep', 'In')] == [2, 1, 0]


def main():
    passed = failed = 0
    for name, holds in cases():
        if holds:
            passed += 1
        else:
            failed += 1
            print(f'failed: {name}')
    print(f'{passed} passed, {failed} failed')
    return failed != 0


if __name__ == '__main__':
    sys.exit(main())
