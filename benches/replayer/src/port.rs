//! The machine of a port: its calls, step by step.

use crate::embedded::Embedded;
use crate::get_set::GetSet;
use crate::memory::{Applied, Memory};
use crate::plan::Call;

const VACATED: u64 = 1;
// The causes of refusals of calls.
const COMPONENT: u8 = 7;
const SLOTS_SPENT: u8 = 8;
const POOL_SPENT: u8 = 9;

/// What a call was answered.
pub enum Answer {
    Applied { stamp: u64 },
    Lost { by: u64 },
    Changed { by: u64 },
    Scanned { values: Vec<u64>, collects: u32, borrowed: Option<u64> },
    Read { value: u64, stamp: u64 },
    Refused { cause: u8 },
}

/// Which step of a call is due.
#[derive(Clone, Copy)]
enum Stage {
    Stamp,
    Value { stamp: u64 },
    Old,
    GetSet,
    ScanFound,
    RecordClaim,
    RecordStore { at: u64, stored: usize },
    Exchange { at: u64 },
    AnnouncementClaim,
    AnnouncementStore { at: u64, stored: usize },
    SlotClaim { announcement: u64 },
    Join { slot: u64, announcement: u64 },
    Scan { slot: u64 },
    Leave { slot: u64 },
}

/// A port. It makes one call at a time.
pub struct Port {
    number: u32,
    stage: Stage,
    component: u32,
    value: u64,
    expected: Option<u64>,
    old: u64,
    get_set: GetSet,
    embedded: Embedded,
    /// The words of the block that is stored.
    block: Vec<u64>,
    pool_spent: bool,
    slots_spent: bool,
}

impl Port {
    pub fn new(number: u32, components: u32) -> Port {
        Port {
            number,
            stage: Stage::Stamp,
            component: 0,
            value: 0,
            expected: None,
            old: 0,
            get_set: GetSet::new(components),
            embedded: Embedded::new(components),
            block: Vec::new(),
            pool_spent: false,
            slots_spent: false,
        }
    }

    /// Begins a call. Its answer, where it makes no step.
    #[inline]
    pub fn begin(&mut self, call: &Call, components: u64) -> Option<Answer> {
        match call {
            Call::Update { component, value } => self.begin_update(*component, None, *value, components),
            Call::UpdateIf { component, expected, value } => {
                self.begin_update(*component, Some(*expected), *value, components)
            }
            Call::Scan { components: positions } => self.begin_scan(positions, components),
            Call::Read { component } => {
                if u64::from(*component) >= components {
                    return Some(Answer::Refused { cause: COMPONENT });
                }
                self.component = *component;
                self.stage = Stage::Stamp;
                None
            }
        }
    }

    #[inline]
    fn begin_update(
        &mut self,
        component: u32,
        expected: Option<u64>,
        value: u64,
        components: u64,
    ) -> Option<Answer> {
        if u64::from(component) >= components {
            return Some(Answer::Refused { cause: COMPONENT });
        }
        if self.pool_spent {
            return Some(Answer::Refused { cause: POOL_SPENT });
        }
        self.component = component;
        self.expected = expected;
        self.value = value;
        self.stage = Stage::Old;
        None
    }

    fn begin_scan(&mut self, positions: &[u32], components: u64) -> Option<Answer> {
        if positions.iter().any(|&position| u64::from(position) >= components) {
            return Some(Answer::Refused { cause: COMPONENT });
        }
        if positions.is_empty() {
            return Some(Answer::Scanned { values: Vec::new(), collects: 0, borrowed: None });
        }
        match (self.pool_spent, self.slots_spent) {
            (true, _) => Some(Answer::Refused { cause: POOL_SPENT }),
            (false, true) => Some(Answer::Refused { cause: SLOTS_SPENT }),
            (false, false) => {
                self.embedded.begin(positions, false);
                self.stage = Stage::AnnouncementClaim;
                None
            }
        }
    }

    /// Makes the due step of the call under way. Its answer, where that was its last one.
    #[inline]
    pub fn step(&mut self, memory: &mut Memory) -> Option<Answer> {
        match self.stage {
            Stage::Stamp => {
                let stamp = memory.load(self.number, u64::from(self.component));
                self.stage = Stage::Value { stamp };
                None
            }
            Stage::Value { stamp } => {
                let value = memory.load(self.number, stamp + 1);
                Some(Answer::Read { value, stamp })
            }
            Stage::Old => self.load_old(memory),
            Stage::GetSet => {
                if self.get_set.step(self.number, memory) {
                    self.end_get_set();
                }
                None
            }
            Stage::ScanFound => {
                if self.embedded.step(self.number, memory) {
                    self.stage = Stage::RecordClaim;
                }
                None
            }
            Stage::RecordClaim => self.claim_record(memory),
            Stage::RecordStore { at, stored } => {
                self.stage = match self.store(memory, at, stored) {
                    true => Stage::Exchange { at },
                    false => Stage::RecordStore { at, stored: stored + 1 },
                };
                None
            }
            Stage::Exchange { at } => Some(self.exchange(memory, at)),
            _ => self.step_scan(memory),
        }
    }

    #[inline]
    fn step_scan(&mut self, memory: &mut Memory) -> Option<Answer> {
        match self.stage {
            Stage::Scan { slot } => {
                if self.embedded.step(self.number, memory) {
                    self.stage = Stage::Leave { slot };
                }
                None
            }
            Stage::AnnouncementStore { at, stored } => {
                self.stage = match self.store(memory, at, stored) {
                    true => Stage::SlotClaim { announcement: at },
                    false => Stage::AnnouncementStore { at, stored: stored + 1 },
                };
                None
            }
            Stage::SlotClaim { announcement } => self.claim_slot(memory, announcement),
            Stage::Join { slot, announcement } => {
                memory.store(self.number, memory.layout.slot_word(slot), announcement);
                self.stage = Stage::Scan { slot };
                None
            }
            Stage::Leave { slot } => Some(self.leave(memory, slot)),
            _ => self.claim_announcement(memory),
        }
    }

    #[inline]
    fn load_old(&mut self, memory: &mut Memory) -> Option<Answer> {
        self.old = memory.load(self.number, u64::from(self.component));
        if self.expected.is_some_and(|expected| expected != self.old) {
            return Some(Answer::Changed { by: self.old });
        }
        self.get_set.begin();
        self.stage = Stage::GetSet;
        None
    }

    #[inline]
    fn end_get_set(&mut self) {
        self.embedded.begin(&self.get_set.found, true);
        self.stage = match self.get_set.found.is_empty() {
            true => Stage::RecordClaim,
            false => Stage::ScanFound,
        };
    }

    /// Claims as many words of the pool as the block has.
    #[inline]
    fn claim(&mut self, memory: &mut Memory) -> Option<u64> {
        let words = self.block.len() as u64;
        let at = memory.add(self.number, memory.layout.pool_counter(), words);
        self.pool_spent = at + words > memory.layout.pool_end;
        (!self.pool_spent).then_some(at)
    }

    /// Stores a word of the block. Whether it was the last one.
    #[inline]
    fn store(&mut self, memory: &mut Memory, at: u64, stored: usize) -> bool {
        memory.store(self.number, at + stored as u64, self.block[stored]);
        stored + 1 == self.block.len()
    }

    #[inline]
    fn claim_record(&mut self, memory: &mut Memory) -> Option<Answer> {
        self.block.clear();
        self.block.extend([self.old, self.value, self.embedded.view]);
        let own_view = self.embedded.third.is_none() && !self.embedded.positions.is_empty();
        if own_view {
            self.block.push(self.embedded.positions.len() as u64);
            for (index, value) in self.embedded.pairs() {
                self.block.extend([u64::from(index), value]);
            }
        }
        let Some(at) = self.claim(memory) else {
            return Some(Answer::Refused { cause: POOL_SPENT });
        };
        if own_view {
            self.block[2] = at + 3;
        }
        self.stage = Stage::RecordStore { at, stored: 0 };
        None
    }

    #[inline]
    fn exchange(&mut self, memory: &mut Memory, at: u64) -> Answer {
        let (port, component, value) = (self.number, self.component, self.value);
        let by = memory.exchange(port, u64::from(component), self.old, at);
        if by == self.old {
            memory.history.push(Applied { port, component, value, stamp: at });
            return Answer::Applied { stamp: at };
        }
        match self.expected {
            Some(_) => Answer::Changed { by },
            None => Answer::Lost { by },
        }
    }

    fn claim_announcement(&mut self, memory: &mut Memory) -> Option<Answer> {
        self.block.clear();
        self.block.push(self.embedded.positions.len() as u64);
        self.block.extend(self.embedded.positions.iter().copied().map(u64::from));
        let Some(at) = self.claim(memory) else {
            return Some(Answer::Refused { cause: POOL_SPENT });
        };
        self.stage = Stage::AnnouncementStore { at, stored: 0 };
        None
    }

    fn claim_slot(&mut self, memory: &mut Memory, announcement: u64) -> Option<Answer> {
        let slot = memory.add(self.number, memory.layout.slot_counter(), 1);
        if slot >= memory.layout.slots {
            self.slots_spent = true;
            return Some(Answer::Refused { cause: SLOTS_SPENT });
        }
        self.stage = Stage::Join { slot, announcement };
        None
    }

    fn leave(&mut self, memory: &mut Memory, slot: u64) -> Answer {
        memory.store(self.number, memory.layout.slot_word(slot), VACATED);
        let Embedded { collects, third, .. } = self.embedded;
        Answer::Scanned { values: self.embedded.values(), collects, borrowed: third }
    }
}
