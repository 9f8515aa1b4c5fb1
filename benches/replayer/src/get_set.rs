//! The getSet: which indices are announced, step by step.

use crate::memory::Memory;

const EMPTY: u64 = 0;
const VACATED: u64 = 1;

/// Which step is due.
#[derive(Clone, Copy)]
enum Stage {
    ListHead,
    ListLength,
    Low,
    High { low: u64 },
    SlotCounter,
    Slot,
    AnnouncedLength { announcement: u64 },
    Announced { at: u64, end: u64 },
    ListClaim,
    ListStore { at: u64, stored: usize },
    ListExchange { at: u64 },
}

/// The getSets of a port, one after the other.
pub struct GetSet {
    stage: Stage,
    /// The indices found, without repeats.
    pub found: Vec<u32>,
    is_found: Vec<bool>,
    head: u64,
    /// The intervals of vacated slots in the list that was read.
    read: Vec<(u64, u64)>,
    intervals: u64,
    /// Those, and the slots noted as vacated: the next list.
    next: Vec<(u64, u64)>,
    noted: bool,
    /// How many intervals of the list that was read lie below `slot`.
    passed: usize,
    slot: u64,
    end: u64,
    lists_spent: bool,
}

impl GetSet {
    pub fn new(components: u32) -> GetSet {
        GetSet {
            stage: Stage::ListHead,
            found: Vec::new(),
            is_found: vec![false; components as usize],
            head: 0,
            read: Vec::new(),
            intervals: 0,
            next: Vec::new(),
            noted: false,
            passed: 0,
            slot: 0,
            end: 0,
            lists_spent: false,
        }
    }

    /// Begins the next getSet.
    pub fn begin(&mut self) {
        self.stage = Stage::ListHead;
        for index in self.found.drain(..) {
            self.is_found[index as usize] = false;
        }
        self.read.clear();
        self.next.clear();
        self.noted = false;
        self.passed = 0;
        self.slot = 0;
    }

    /// Makes the due step. Whether it was the last one.
    #[inline]
    pub fn step(&mut self, port: u32, memory: &mut Memory) -> bool {
        match self.stage {
            Stage::Slot => return self.load_slot(port, memory),
            Stage::ListHead => {
                self.head = memory.load(port, memory.layout.list_head());
                self.stage = if self.head == 0 { Stage::SlotCounter } else { Stage::ListLength };
            }
            Stage::ListLength | Stage::Low | Stage::High { .. } => self.load_list(port, memory),
            Stage::SlotCounter => {
                let counter = memory.load(port, memory.layout.slot_counter());
                self.end = counter.min(memory.layout.slots);
                return self.go_on_from(0);
            }
            Stage::AnnouncedLength { announcement } => {
                let length = memory.load(port, announcement);
                let at = announcement + 1;
                return self.go_on_announced(at, at + length);
            }
            Stage::Announced { at, end } => {
                self.insert(memory.load(port, at) as u32);
                return self.go_on_announced(at + 1, end);
            }
            Stage::ListClaim => return self.claim(port, memory),
            Stage::ListStore { at, stored } => self.store(port, memory, at, stored),
            Stage::ListExchange { at } => {
                memory.exchange(port, memory.layout.list_head(), self.head, at);
                return true;
            }
        }
        false
    }

    fn load_list(&mut self, port: u32, memory: &mut Memory) {
        let pair = self.head + 1 + 2 * self.read.len() as u64;
        self.stage = match self.stage {
            Stage::Low => Stage::High { low: memory.load(port, pair) },
            Stage::High { low } => {
                self.read.push((low, memory.load(port, pair + 1)));
                self.low_or_counter()
            }
            _ => {
                self.intervals = memory.load(port, self.head);
                self.low_or_counter()
            }
        };
    }

    fn low_or_counter(&self) -> Stage {
        match (self.read.len() as u64) < self.intervals {
            true => Stage::Low,
            false => Stage::SlotCounter,
        }
    }

    #[inline]
    fn load_slot(&mut self, port: u32, memory: &mut Memory) -> bool {
        let slot = self.slot;
        match memory.load(port, memory.layout.slot_word(slot)) {
            EMPTY => self.go_on_from(slot + 1),
            VACATED => {
                self.noted = true;
                self.note(slot, slot);
                self.go_on_from(slot + 1)
            }
            announcement => {
                self.stage = Stage::AnnouncedLength { announcement };
                false
            }
        }
    }

    /// Goes on with the first slot from this one on that isn't in the list.
    #[inline]
    fn go_on_from(&mut self, mut slot: u64) -> bool {
        while let Some(&(low, high)) = self.read.get(self.passed) {
            if slot < low {
                break;
            }
            self.note(low, high);
            self.passed += 1;
            slot = high + 1;
        }
        self.slot = slot;
        if slot < self.end {
            self.stage = Stage::Slot;
            return false;
        }
        self.stage = Stage::ListClaim;
        !self.noted || self.lists_spent
    }

    #[inline]
    fn go_on_announced(&mut self, at: u64, end: u64) -> bool {
        if at < end {
            self.stage = Stage::Announced { at, end };
            return false;
        }
        self.go_on_from(self.slot + 1)
    }

    #[inline]
    fn note(&mut self, low: u64, high: u64) {
        match self.next.last_mut() {
            Some(last) if last.1 + 1 == low => last.1 = high,
            _ => self.next.push((low, high)),
        }
    }

    #[inline]
    fn insert(&mut self, index: u32) {
        let is_found = &mut self.is_found[index as usize];
        if !*is_found {
            *is_found = true;
            self.found.push(index);
        }
    }

    fn claim(&mut self, port: u32, memory: &mut Memory) -> bool {
        let size = 1 + 2 * self.next.len() as u64;
        let at = memory.add(port, memory.layout.list_counter(), size);
        self.lists_spent = at + size > memory.layout.pool_base;
        self.stage = Stage::ListStore { at, stored: 0 };
        self.lists_spent
    }

    fn store(&mut self, port: u32, memory: &mut Memory, at: u64, stored: usize) {
        let word = match stored {
            0 => self.next.len() as u64,
            _ if stored % 2 == 1 => self.next[stored / 2].0,
            _ => self.next[stored / 2 - 1].1,
        };
        memory.store(port, at + stored as u64, word);
        self.stage = match stored < 2 * self.next.len() {
            true => Stage::ListStore { at, stored: stored + 1 },
            false => Stage::ListExchange { at },
        };
    }
}
