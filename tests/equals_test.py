#!/usr/bin/env python3
"""Tries edits of a small crate with the prover: what is equal to what it replaces is never refused, nor is what ends a check
otherwise than by the meaning of a body or a definition; and wrong bodies and definitions beside them are refused.

The last line is 'N passed, M failed', one for each edit.
"""
import sys
import tempfile
from pathlib import Path

sys.path.insert(0, str(Path(__file__).resolve().parent))
import edits  # noqa: E402
from definitions import write  # noqa: E402

FILES = {
    'src/lib.rt': '//! Sums and choices.\n#![tactic(auto)]\n\npub mod code;\npub mod law;\n',
    'src/code.rt': '''\
//! Sums and choices.

ghost use Rattle.std.specs.Prelude.{ℕ, ◌≡◌, ◌+◌, ◌^◌, ◌<◌};
ghost use Rattle.low.specs.Sums.{larger, total};
''' + ''.join(f'''
/// The sum of two numbers.
pub fn {name}(a: u64, b: u64) -> u64
    requires first {{ a < 2 ^ 62 }}
    requires second {{ b < 2 ^ 62 }}
    ensures {{ result ≡ total a b }}
{{
    a + b // {name}
}}
''' for name in ('sum', 'other_sum', 'third_sum', 'last_sum')) + ''.join(f'''
/// The larger one of two numbers.
pub fn {name}(a: u64, b: u64) -> u64
    ensures {{ result ≡ larger a b }}
{{
    let is_less = a < b; // {name}
    if is_less {{ b }} else {{ a }} // {name}
}}
''' for name in ('largest', 'other_largest')),
    'src/law.rt': '''\
//! Laws of sums and choices.

ghost use Rattle.low.specs.Sums.{GoesDown, TotalsCommute, SmallOnesFit};

/// A sum is one of both numbers.
pub fn totals_commute()
    ensures { TotalsCommute }
{}

/// Small numbers fit.
pub fn small_ones_fit()
    ensures { SmallOnesFit }
{}

/// A number goes down to nothing.
pub fn goes_down()
    ensures { GoesDown }
{}
''',
    'specs/Lib.antt': 'pub mod Sums\n',
    'specs/Sums.antt': '''\
-- Sums and choices.
use Rattle.std.specs.Prelude.{ℕ, zero, suc, ◌≡◌, ◌+◌, ◌≤◌, ◌<◌, if◌then◌else◌, nat_lt}

-- the sum of two numbers
abbrev pub total : ℕ → ℕ → ℕ
total a b = a + b

-- the larger one of two numbers
abbrev pub larger : ℕ → ℕ → ℕ
larger a b = if nat_lt a b then b else a

-- both are small
pub record AreSmall (a b : ℕ) : Type 0 where
  pub first : a < 8
  pub second : b < 8

-- a sum is one of both numbers
abbrev pub TotalsCommute : Type 0
TotalsCommute = (a b : ℕ) → total a b ≡ total b a

-- the sum of small numbers is small
abbrev pub SmallOnesFit : Type 0
SmallOnesFit = (a b : ℕ) → AreSmall a b → total a b ≤ 14

-- down to nothing
unfoldable pub down : ℕ → ℕ
down zero = 0
down (suc n) = down n

-- three goes down to nothing
abbrev pub GoesDown : Type 0
GoesDown = down 3 ≡ 0
''',
    'proofs/Lib.antt': 'pub mod Sums\n',
    'proofs/Sums.antt': '''\
-- Sums.
use Rattle.std.proofs.Common.{ℕ, ◌+◌, ◌≡◌, refl, arith}
use Rattle.low.specs.Sums.{TotalsCommute, SmallOnesFit, AreSmall, GoesDown, down, total}

by_parts : (a b : ℕ) → (a + b) ≡ (b + a) → total a b ≡ total b a
by_parts a b is = is

pub totals : TotalsCommute
totals a b = by_parts a b (omega arith)

pub small : SmallOnesFit
small a b are = let first = are.first in let second = are.second in omega (arith, first, second)

pub goes_down : GoesDown
unfolding down
goes_down = refl
''',
    **{f'proofs/law/{law}/Answers.antt': f'''\
use Rattle.low.proofs.Sums.{{{proof}}}
use Rattle.low.proofs.law.{law}.Goals as goal

pub returns : goal.returns
returns c = {proof}
''' for law, proof in (('totals_commute', 'totals'), ('small_ones_fit', 'small'), ('goes_down', 'goes_down'))},
    **{f'proofs/code/{name}/Answers.antt': f'''\
use Rattle.std.proofs.Common.{{refl}}
use Rattle.low.proofs.code.{name}.Goals as goal

pub returns : goal.returns
returns c = refl
''' for name in ('sum', 'other_sum', 'third_sum')},
}


def edit_of_code(name, function, goal, old, new):
    return f'edit: {name}\nrefused: code::{function}\nby: {goal}\nfile: src/code.rt\nold: {old} // {function}\nnew: {new}\n\n'


def edit_of_definition(name, law, old, new):
    return f'edit: {name}\nrefused: law::{law}\nfile: specs/Sums.antt\nold: {old}\nnew: {new}\n\n'


TOTAL = 'total a b = a + b'
# The edits that are tried together, and why each is not refused, or nothing where it is.
RUNS = [
    ({
        'a comment': edit_of_code('a comment', 'sum', 'returns', 'a + b', 'a + b // both'),
        'an overflow alone': edit_of_code('an overflow alone', 'other_sum', 'returns', 'a + b', 'b * 8 + a - b * 7'),
        'an equal sum': edit_of_code('an equal sum', 'third_sum', 'returns', 'a + b', 'b + a'),
        'an equal choice': edit_of_code('an equal choice', 'largest', 'returns-then-is_less', 'a < b;', '!(b <= a);'),
        'a wrong sum': edit_of_code('a wrong sum', 'last_sum', 'returns', 'a + b', 'a + a'),
        'a wrong choice': edit_of_code('a wrong choice', 'other_largest', 'returns-then-is_less', 'a < b;', 'b < a;'),
        'a comment on a definition': edit_of_definition('a comment on a definition', 'totals_commute', TOTAL, f'{TOTAL} -- both'),
        'an equal definition': edit_of_definition('an equal definition', 'totals_commute', TOTAL, 'total a b = b + a'),
        'an equal record': edit_of_definition('an equal record', 'small_ones_fit', 'first : a < 8', 'first : a ≤ 7'),
        'a wrong definition': edit_of_definition('a wrong definition', 'totals_commute', TOTAL, 'total a b = a + a + b'),
        'a wrong record': edit_of_definition('a wrong record', 'small_ones_fit', 'second : b < 8', 'second : b < 9'),
    }, {
        'a comment': 'its goal is proved',
        'an overflow alone': 'its goal is proved',
        'an equal sum': 'its goal is proved',
        'an equal choice': 'its goal is proved',
        'a comment on a definition': 'the law is not refused',
        'an equal definition': 'the definition is equal to the one before',
        'an equal record': 'the law is not refused',
    }),
    ({'a text that is no code': edit_of_code('a text that is no code', 'sum', 'returns', 'a + b', 'a + + b')},
     {'a text that is no code': 'code::sum is not refused'}),
    ({'a text that is no definition': edit_of_definition('a text that is no definition', 'totals_commute', TOTAL, 'total a b = a + + b')},
     {'a text that is no definition': 'the definition is none'}),
    ({'a run out of steps': edit_of_definition('a run out of steps', 'goes_down', 'down 3 ', 'down 3000000000 ')},
     {'a run out of steps': 'a run out of steps: '}),
]


def tried(texts):
    """What is wrong with each of these edits of the crate, by their names."""
    with tempfile.TemporaryDirectory() as room:
        top, edits.TOP = edits.TOP, Path(room)
        for path, text in [*FILES.items(), ('edits.txt', ''.join(texts))]:
            write(Path(room) / 'crates/low' / path, text)
        proved = Path(room) / 'proved'
        proved.mkdir()
        try:
            _, faults = edits.try_crate('low', {'low': []}, edits.Libraries(proved), lambda: 1)
        finally:
            edits.TOP = top
        return dict(faults)


def main():
    passed = failed = 0
    for texts, reasons in RUNS:
        wrong = tried(texts.values())
        for name in texts:
            reason, told = reasons.get(name), wrong.get(name)
            if (told is None) if reason is None else (told is not None and reason in told):
                passed += 1
            else:
                failed += 1
                print(f'failed: {name}: {told or "it is refused"}')
    print(f'{passed} passed, {failed} failed')
    return failed != 0


if __name__ == '__main__':
    sys.exit(main())
