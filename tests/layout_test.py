#!/usr/bin/env python3
"""Tests what tests/layout.py finds: lines that have a size or a place of the layout in numbers, and lines that don't.

The last line is 'N passed, M failed'.
"""
import sys
from pathlib import Path

sys.path.insert(0, str(Path(__file__).resolve().parent))
import layout  # noqa: E402

FOUND = (
    # initial records, and where one of them stands
    'HaveSlots e = e.sizes.pool ≤ 2 * e.sizes.slots + 3 * e.sizes.m',
    'pub initial : b.at ≡ pool_base z + 3 * z.m',
    'let initial = 3 * m;',
    'let initial = 3 * u64::from(count);',
    'let at = pool_base + component * 3;',
    'subst (λ (a : About). a.sizes.m * 3 ≤ a.sizes.pool) h.own plan',
    'pub free : (i < pool_base z) ⊎ ((i - pool_base z) % 3 ≢ 1)',
    'let component = (word - pool_base) / 3;',
    # records with their views
    'size_few : record_size c ≤ 4 + 2 * c.sizes.m',
    'sized : (b : Bool) (n : ℕ) → cond b (4 + 2 * n) 3 ≤ limit',
    'let size = 4 + 2 * u64::from(pairs);',
    'let size = 2 * pairs + 4;',
    'b = record { at = at; size = 3 }',
    'pub size_few : (s : CoreState) → (3 ≤ record_size s) × Fits s',
    'option_map_or (λ _. 3) s.embedded.borrowed own',
    'ensures least { 3 ≤ result }',
    'entry_word : (n : ℕ) → n < 3 → get_or later (e.stamp + n) 0 ≡ get_or words (e.stamp + n) 0',
    '_ => self.pair_word(k - 4),',
    # places in a record
    'value : get_or words (at + 1) 0 ≡ v',
    'lines.make(Step::Store((at + 2) as u32, 0));',
    'let value = words[at + 1];',
    'let value = words[at as usize + 1];',
    'Some (Load (stamp + 1))',
    'step_at s (View stamp) = Some (Load (stamp + 2))',
    'entries : (z.m ≤ e.stamp) × (e.stamp + 2 < length words)',
    'own : view_of words at ≡ at + 3',
    'within : d.at + 3 ≤ pool_end z',
    'let word = u64::from(at) + 1;',
    'let first : initial_stamp o j + 1 < length words = h in',
    'read : get_or words (stamp_of (opening o) (take n h) j + 1) 0 ≡ v',
    'let v : ℕ = unsealed raw + 1 in',
    'within : get_or bw j 0 + 2 < total e.sizes',
    'pub lies : slice_index words j + 2 < length words',
    # views, lists and announcements
    'most : length (view_block pairs) ≡ 1 + 2 * length pairs',
    'high : 2 + 2 * length pairs < length block',
    'goes_at (Index at left) p = at + 2 * left ≤ pool_end p.0.sizes',
    'let more = 1 + 2 * left;',
    'b = record { stored = 1 + length indices }',
    'fits_pool s.sizes (1 + length s.asked) x',
    'left : length s.asked + 1 - k ≤ n',
    # counters and slots
    'counter_low : (s : Space) → z.m + 2 ≤ counter_of z s',
    'IsApart z (Store w v) = z.m + 4 ≤ w',
    'let counter = sizes.m() + 3;',
    'let slot = word - m - 4;',
    '        self.m + 2',
    'lists_high : n ≤ list_end z + (z.slots + 2) * marks',
)
NOT_FOUND = (
    # indices, counts of steps and of calls
    'position: position + 1,',
    'let next = self.count + 1;',
    'advance_at s (StoringRecord c old at k) x = at_stage s (StoringRecord c old at (k + 1))',
    'let there : p + 1 + i ≡ p + suc i = omega arith in',
    'shown_by (note.Wrote k) = k + 1',
    'made_at s made n Joining = made + join_left s.join.stage ≡ length s.asked + 4',
    'pub few : p.0.collects ≤ length positions + 2',
    'most_steps s r = r * (r + 2) + view_size s.m + 1',
    'most_of_update z = viewing.most_steps z z.m + greatest_record z + 3',
    'left_at s Joining = viewing.most_steps s.sizes (length s.asked) + 1',
    'left_at s (ListLen at) = list_end s - at + 1 + walk_left s 0',
    'passes e = 3 * e.ports',
    'for _ in 0..3 * stand.shape.ports {',
    'change_left e (LoadsPort n x q) = 3 * (e.ports - q) + 1 + arenas_left e n x',
    'n ≤ 2 * most_steps e.sizes (call.Scan js) + 4',
    'pub arenas : s.arenas ≡ 2 * n',
    'at_word k = 1 + k',
    'own_word e x = 1 + e.ports + x',
    'now : get_or words (slot_counter z) 0 + 1 ≡ get_or later (slot_counter z) 0',
    'marks_more : pool_marks (h ∷ hs) ≡ 1 + pool_marks hs',
    'let count : length log + 1 ≡ length (log ++ e ∷ []) = refl in',
    'let turn : stamp_of o (take (k + 1) h) j ≡ e.stamp = last in',
    # places and sizes by their names
    'value : get_or words (value_word at) 0 ≡ v',
    'within : stamp + plain_record_size ≤ pool_end z',
    'pub initial : b.at ≡ initial_record z j',
    'goes_at (Index at left) p = at + pairs_size left ≤ pool_end p.0.sizes',
    'lines.make(Step::Store((at + k) as u32, word));',
    # words that end as one of the layout's
    'seat + 1',
    'let next = state.lookups + 1;',
    'format + 3',
)
# Files of a repository that has one place to be allowed: a fault, an allowed place, and the place that is gone.
TEXTS = {
    'low/specs/A.antt': '-- a record: 4 + 2 * n\nsize n = 4 + 2 * n\nloads m = 3 * m\n',
    'low/src/lib.rt': '// at + 1\nlet x = k + 1; // at + 1\n',
}
LOADS = ('low/specs/A.antt', ['loads m = 3 * m'], 'loads')


def cases():
    """The name of each case, and whether it holds."""
    for line in FOUND:
        yield f'found: {line}', bool(layout.found(line))
    for line in NOT_FOUND:
        yield f'not found: {line}', not layout.found(line)
    passed, faults = layout.judged(TEXTS, [LOADS])
    yield 'a file, and a place that is allowed', passed == 2
    yield 'a line is found, and no comment', len(faults) == 1 and faults[0].startswith('crates/low/specs/A.antt:2: ')
    _, faults = layout.judged(TEXTS, [])
    yield 'a place that is not allowed', [fault.split(':')[1] for fault in faults] == ['2', '3']
    _, faults = layout.judged(TEXTS, [LOADS, ('low/src/lib.rt', ['at + 1'], 'gone')])
    yield 'an allowed place of which only a comment is left', 'no line has "at + 1"' in faults[-1] and len(faults) == 2
    _, faults = layout.judged(TEXTS, [LOADS, ('low/src/gone.rt', ['at + 1'], 'gone')])
    yield 'an allowed place in a file that is gone', 'crates/low/src/gone.rt: no line' in faults[-1] and len(faults) == 2
    crates = layout.texts_of(layout.TOP / 'crates')
    yield 'the files of the layout itself are not searched', crates and not any(name.startswith('partial_words/') for name in crates)
    yield 'code, definitions and proofs are searched', {name.split('/')[1] for name in crates} == {'src', 'specs', 'proofs'}


def main():
    results = list(cases())
    failed = [name for name, holds in results if not holds]
    for name in failed:
        print(f'failed: {name}')
    print(f'{len(results) - len(failed)} passed, {len(failed)} failed')
    return bool(failed)


if __name__ == '__main__':
    sys.exit(main())
