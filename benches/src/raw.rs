//! The same algorithm in plain Rust, with nothing proved: the layout, the blocks and the steps of
//! docs/reference/words-and-steps.md, in the same order, in straight lines over one slice of atomics. All buffers
//! are taken at opening. The slice is indexed with bounds checks, as safe Rust does it.

use crate::answers::{Scanned, Updated, UpdatedIf, Value};
use partial_door::opening::{Refused, Sizes};
use std::iter::repeat_n;
use std::ops::Range;
use std::sync::atomic::{AtomicU64, Ordering::SeqCst};
use std::sync::Arc;

const EMPTY: u64 = 0;
const VACATED: u64 = 1;
// A record without a view of its own: the record before it, its value, the reference of its view.
const PLAIN_RECORD: u64 = 3;

/// Where the words of each kind stand: those of the components first.
#[derive(Clone, Copy)]
struct Layout {
    components: u64,
    slots: u64,
    list_base: u64,
    pool_base: u64,
    pool_end: u64,
}

impl Layout {
    fn new(components: u64, sizes: Sizes) -> Layout {
        let list_base = components + 4 + u64::from(sizes.slots);
        let pool_base = list_base + u64::from(sizes.list_words);
        Layout {
            components,
            slots: u64::from(sizes.slots),
            list_base,
            pool_base,
            pool_end: pool_base + u64::from(sizes.pool_words),
        }
    }

    #[inline]
    fn slot_counter(&self) -> u64 {
        self.components
    }

    #[inline]
    fn list_head(&self) -> u64 {
        self.components + 1
    }

    #[inline]
    fn pool_counter(&self) -> u64 {
        self.components + 2
    }

    #[inline]
    fn list_counter(&self) -> u64 {
        self.components + 3
    }

    #[inline]
    fn slot_word(&self, slot: u64) -> u64 {
        self.components + 4 + slot
    }

    /// The record with which a component opens.
    #[inline]
    fn opening_record(&self, component: u64) -> u64 {
        self.pool_base + PLAIN_RECORD * component
    }
}

/// The words that all ports share.
struct Words(Arc<[AtomicU64]>);

impl Words {
    #[inline]
    fn load(&self, word: u64) -> u64 {
        self.0[word as usize].load(SeqCst)
    }

    #[inline]
    fn store(&self, word: u64, value: u64) {
        self.0[word as usize].store(value, SeqCst);
    }

    #[inline]
    fn add(&self, word: u64, by: u64) -> u64 {
        self.0[word as usize].fetch_add(by, SeqCst)
    }

    /// The word as the exchange found it: `old` where it was won.
    #[inline]
    fn exchange(&self, word: u64, old: u64, new: u64) -> u64 {
        match self.0[word as usize].compare_exchange(old, new, SeqCst, SeqCst) {
            Ok(found) | Err(found) => found,
        }
    }

    #[inline]
    fn block(&self, at: u64, words: u64) -> &[AtomicU64] {
        &self.0[at as usize..(at + words) as usize]
    }

    /// The pairs of a list or a view, whose first word is their number.
    #[inline]
    fn pairs(&self, at: u64) -> impl Iterator<Item = (u64, u64)> + '_ {
        let pairs = self.load(at);
        let words = self.block(at + 1, 2 * pairs).chunks_exact(2);
        words.map(|pair| (pair[0].load(SeqCst), pair[1].load(SeqCst)))
    }
}

/// The indices that a getSet has found, without repeats.
struct Found {
    indices: Vec<u32>,
    marks: Vec<bool>,
}

impl Found {
    #[inline]
    fn clear(&mut self) {
        for index in self.indices.drain(..) {
            self.marks[index as usize] = false;
        }
    }

    #[inline]
    fn insert(&mut self, index: u32) {
        let mark = &mut self.marks[index as usize];
        if !*mark {
            *mark = true;
            self.indices.push(index);
        }
    }
}

/// The slots from the first to the second one of each pair, rising.
struct Intervals(Vec<(u64, u64)>);

impl Intervals {
    #[inline]
    fn add(&mut self, low: u64, high: u64) {
        match self.0.last_mut() {
            Some(last) if last.1 + 1 == low => last.1 = high,
            _ => self.0.push((low, high)),
        }
    }
}

/// What an embedded scan has loaded: the latest record of each position, and whether the position has
/// changed.
struct Rows {
    last: Vec<u64>,
    changed: Vec<bool>,
}

impl Rows {
    /// Collects the positions until two collects agree, or one of them shows a third record: how often,
    /// and the third record.
    #[inline]
    fn collect(&mut self, words: &Words, positions: &[u32]) -> (u32, Option<u64>) {
        let last = &mut self.last[..positions.len()];
        let changed = &mut self.changed[..positions.len()];
        for (&position, last) in positions.iter().zip(&mut *last) {
            *last = words.load(u64::from(position));
        }
        changed.fill(false);
        let mut collects = 1;
        loop {
            collects += 1;
            let mut moved = false;
            let rows = last.iter_mut().zip(&mut *changed);
            for (&position, (last, changed)) in positions.iter().zip(rows) {
                let stamp = words.load(u64::from(position));
                if stamp != *last {
                    if *changed {
                        return (collects, Some(stamp));
                    }
                    *last = stamp;
                    *changed = true;
                    moved = true;
                }
            }
            if !moved {
                return (collects, None);
            }
        }
    }

    /// Loads the values of the records, once two collects have agreed.
    #[inline]
    fn values(&self, words: &Words, into: &mut [u64]) {
        for (into, stamp) in into.iter_mut().zip(&self.last) {
            *into = words.load(stamp + 1);
        }
    }
}

/// What one thread holds of a memory.
pub struct Port {
    words: Words,
    layout: Layout,
    pool_spent: bool,
    slots_spent: bool,
    lists_spent: bool,
    found: Found,
    read: Intervals,
    next: Intervals,
    rows: Rows,
    values: Vec<u64>,
}

// The words of a memory that holds these values.
fn opening_words(initial: &[u64], layout: Layout) -> Arc<[AtomicU64]> {
    let pool_begin = layout.opening_record(layout.components);
    let counters = [0, 0, pool_begin, layout.list_base];
    let vacant = (layout.pool_base - layout.slot_word(0)) as usize;
    let records = (0..3 * initial.len()).map(|word| match word % 3 {
        1 => initial[word / 3],
        _ => 0,
    });
    let free = (layout.pool_end - pool_begin) as usize;
    let components = (0..initial.len()).map(|component| layout.opening_record(component as u64));
    let shared = components.chain(counters).chain(repeat_n(0, vacant));
    let words = shared.chain(records).chain(repeat_n(0, free));
    words.map(AtomicU64::new).collect()
}

/// Opens a memory whose components hold these values, with sizes that the door takes too, and its ports.
pub fn open(initial: &[u64], sizes: Sizes, ports: u32) -> Vec<Port> {
    let components = initial.len();
    let layout = Layout::new(components as u64, sizes);
    let words = opening_words(initial, layout);
    let intervals = || Intervals(Vec::with_capacity((sizes.slots as usize).div_ceil(2) + 1));
    let port = |_| Port {
        words: Words(words.clone()),
        layout,
        pool_spent: false,
        slots_spent: false,
        lists_spent: false,
        found: Found {
            indices: Vec::with_capacity(components),
            marks: vec![false; components],
        },
        read: intervals(),
        next: intervals(),
        rows: Rows {
            last: vec![0; components],
            changed: vec![false; components],
        },
        values: vec![0; components],
    };
    (0..ports).map(port).collect()
}

impl Port {
    /// The component's value and stamp.
    #[inline]
    pub fn read(&mut self, component: u32) -> Result<Value, Refused> {
        self.is_component(component)?;
        let stamp = self.words.load(u64::from(component));
        let value = self.words.load(stamp + 1);
        Ok(Value { value, stamp })
    }

    /// Sets the component.
    #[inline]
    pub fn update(&mut self, component: u32, value: u64) -> Result<Updated, Refused> {
        self.may_update(component)?;
        let old = self.words.load(u64::from(component));
        let (stamp, found) = self.replace(component, old, value)?;
        Ok(match found == old {
            true => Updated::Applied { stamp },
            false => Updated::Lost { by: found },
        })
    }

    /// Sets the component where it has the stamp `expected`.
    #[inline]
    pub fn update_if(&mut self, component: u32, expected: u64, value: u64) -> Result<UpdatedIf, Refused> {
        self.may_update(component)?;
        let old = self.words.load(u64::from(component));
        if old != expected {
            return Ok(UpdatedIf::Changed { by: old });
        }
        let (stamp, found) = self.replace(component, old, value)?;
        Ok(match found == old {
            true => UpdatedIf::Applied { stamp },
            false => UpdatedIf::Changed { by: found },
        })
    }

    /// The values of these components as they stood together at one moment.
    pub fn scan(&mut self, which: &[u32], into: &mut [u64]) -> Result<Scanned, Refused> {
        self.may_scan(which, into)?;
        if which.is_empty() {
            return Ok(Scanned { collects: 0, borrowed: None });
        }
        let slot = self.join(which)?;
        let (collects, borrowed) = self.rows.collect(&self.words, which);
        match borrowed {
            None => self.rows.values(&self.words, into),
            Some(third) => self.borrow(third, which, into),
        }
        self.words.store(slot, VACATED);
        Ok(Scanned { collects, borrowed })
    }

    #[inline]
    fn is_component(&self, component: u32) -> Result<(), Refused> {
        match u64::from(component) < self.layout.components {
            true => Ok(()),
            false => Err(Refused::Component),
        }
    }

    #[inline]
    fn may_update(&self, component: u32) -> Result<(), Refused> {
        self.is_component(component)?;
        match self.pool_spent {
            true => Err(Refused::PoolSpent),
            false => Ok(()),
        }
    }

    #[inline]
    fn may_scan(&self, which: &[u32], into: &[u64]) -> Result<(), Refused> {
        if which.len() != into.len() || which.len() as u64 > self.layout.components {
            return Err(Refused::Length);
        }
        which.iter().try_for_each(|&component| self.is_component(component))?;
        match (which.is_empty(), self.pool_spent, self.slots_spent) {
            (false, true, _) => Err(Refused::PoolSpent),
            (false, false, true) => Err(Refused::SlotsSpent),
            _ => Ok(()),
        }
    }

    // Claims words of the pool.
    #[inline]
    fn claim(&mut self, words: u64) -> Result<u64, Refused> {
        let at = self.words.add(self.layout.pool_counter(), words);
        if at + words > self.layout.pool_end {
            self.pool_spent = true;
            return Err(Refused::PoolSpent);
        }
        Ok(at)
    }

    // The steps of an update after the load of the record `old`: its own record, and what the exchange found.
    #[inline]
    fn replace(&mut self, component: u32, old: u64, value: u64) -> Result<(u64, u64), Refused> {
        self.get_set();
        let borrowed = self.view_found();
        let at = self.write_record(old, value, borrowed)?;
        Ok((at, self.words.exchange(u64::from(component), old, at)))
    }

    // Writes a record whose view is borrowed, or else its own, of the indices found.
    #[inline]
    fn write_record(&mut self, old: u64, value: u64, borrowed: Option<u64>) -> Result<u64, Refused> {
        let own = match borrowed {
            Some(_) => 0,
            None => self.found.indices.len() as u64,
        };
        let size = PLAIN_RECORD + if own == 0 { 0 } else { 1 + 2 * own };
        let at = self.claim(size)?;
        let view = if own == 0 { borrowed.unwrap_or(0) } else { at + PLAIN_RECORD };
        let (plain, behind) = self.words.block(at, size).split_at(PLAIN_RECORD as usize);
        for (word, content) in plain.iter().zip([old, value, view]) {
            word.store(content, SeqCst);
        }
        if let Some((length, pairs)) = behind.split_first() {
            length.store(own, SeqCst);
            let found = self.found.indices.iter().zip(&self.values);
            for (pair, (&index, &value)) in pairs.chunks_exact(2).zip(found) {
                pair[0].store(u64::from(index), SeqCst);
                pair[1].store(value, SeqCst);
            }
        }
        Ok(at)
    }

    // The embedded scan of the indices found, if any: the reference of a borrowed view, or else the values.
    #[inline]
    fn view_found(&mut self) -> Option<u64> {
        let indices = &self.found.indices;
        if indices.is_empty() {
            return None;
        }
        let (_, third) = self.rows.collect(&self.words, indices);
        if third.is_none() {
            self.rows.values(&self.words, &mut self.values[..indices.len()]);
        }
        third.map(|stamp| self.words.load(stamp + 2))
    }

    // Finds the indices of all announcements, and publishes a list of the slots that are vacated.
    #[inline]
    fn get_set(&mut self) {
        self.found.clear();
        self.read.0.clear();
        self.next.0.clear();
        let head = self.words.load(self.layout.list_head());
        if head != 0 {
            self.read.0.extend(self.words.pairs(head));
        }
        let counter = self.words.load(self.layout.slot_counter());
        let end = counter.min(self.layout.slots);
        let mut noted = false;
        let mut begin = 0;
        for passed in 0..self.read.0.len() {
            let (low, high) = self.read.0[passed];
            noted |= self.walk(begin..low);
            self.next.add(low, high);
            begin = high + 1;
        }
        noted |= self.walk(begin..end);
        if noted && !self.lists_spent {
            self.publish(head);
        }
    }

    // Loads these slots and the announcements in them. Whether any was vacated.
    #[inline]
    fn walk(&mut self, slots: Range<u64>) -> bool {
        let mut noted = false;
        let words = self.words.block(self.layout.slot_word(slots.start), slots.end - slots.start);
        for (slot, word) in slots.zip(words) {
            match word.load(SeqCst) {
                EMPTY => {}
                VACATED => {
                    noted = true;
                    self.next.add(slot, slot);
                }
                announcement => {
                    let indices = self.words.load(announcement);
                    for index in self.words.block(announcement + 1, indices) {
                        self.found.insert(index.load(SeqCst) as u32);
                    }
                }
            }
        }
        noted
    }

    // Publishes the next list of vacated slots instead of the one at `head`.
    fn publish(&mut self, head: u64) {
        let intervals = self.next.0.len() as u64;
        let size = 1 + 2 * intervals;
        let at = self.words.add(self.layout.list_counter(), size);
        if at + size > self.layout.pool_base {
            self.lists_spent = true;
            return;
        }
        self.words.store(at, intervals);
        let pairs = self.words.block(at + 1, 2 * intervals).chunks_exact(2);
        for (pair, &(low, high)) in pairs.zip(&self.next.0) {
            pair[0].store(low, SeqCst);
            pair[1].store(high, SeqCst);
        }
        self.words.exchange(self.layout.list_head(), head, at);
    }

    // Announces the positions of a scan: the word of the slot in which the announcement stands.
    #[inline]
    fn join(&mut self, which: &[u32]) -> Result<u64, Refused> {
        let size = 1 + which.len() as u64;
        let at = self.claim(size)?;
        self.words.store(at, which.len() as u64);
        for (word, &index) in self.words.block(at + 1, size - 1).iter().zip(which) {
            word.store(u64::from(index), SeqCst);
        }
        let slot = self.words.add(self.layout.slot_counter(), 1);
        if slot >= self.layout.slots {
            self.slots_spent = true;
            return Err(Refused::SlotsSpent);
        }
        let word = self.layout.slot_word(slot);
        self.words.store(word, at);
        Ok(word)
    }

    // Takes the values of a scan from the view of a third record.
    fn borrow(&mut self, third: u64, which: &[u32], into: &mut [u64]) {
        let view = self.words.load(third + 2);
        if view != 0 {
            for (index, value) in self.words.pairs(view) {
                self.values[index as usize] = value;
            }
        }
        for (into, &index) in into.iter_mut().zip(which) {
            *into = self.values[index as usize];
        }
    }
}

#[cfg(test)]
mod tests;
