//! The words of a memory, where they stand, and what has happened to them.

use crate::plan::Sizes;

/// An atomic step.
pub enum Step {
    Load(u32),
    Store(u32, u64),
    Exchange(u32, u64, u64),
    Add(u32, u64),
}

/// A step that was made: the port that made it, and its answer.
pub struct Event {
    pub port: u32,
    pub step: Step,
    pub answer: u64,
}

/// An applied update.
pub struct Applied {
    pub port: u32,
    pub component: u32,
    pub value: u64,
    pub stamp: u64,
}

/// Where the words of each kind stand: those of the components first.
pub struct Layout {
    pub components: u64,
    pub slots: u64,
    pub list_base: u64,
    pub pool_base: u64,
    pub pool_end: u64,
}

impl Layout {
    fn new(sizes: Sizes) -> Layout {
        let components = u64::from(sizes.components);
        let list_base = components + 4 + u64::from(sizes.slots);
        let pool_base = list_base + u64::from(sizes.list_words);
        Layout {
            components,
            slots: u64::from(sizes.slots),
            list_base,
            pool_base,
            pool_end: pool_base + u64::from(sizes.pool_words),
        }
    }

    #[inline]
    pub fn slot_counter(&self) -> u64 {
        self.components
    }

    #[inline]
    pub fn list_head(&self) -> u64 {
        self.components + 1
    }

    #[inline]
    pub fn pool_counter(&self) -> u64 {
        self.components + 2
    }

    #[inline]
    pub fn list_counter(&self) -> u64 {
        self.components + 3
    }

    #[inline]
    pub fn slot_word(&self, slot: u64) -> u64 {
        self.components + 4 + slot
    }
}

/// The words that the ports share, and what has happened to them so far.
pub struct Memory {
    pub layout: Layout,
    pub words: Vec<u64>,
    pub history: Vec<Applied>,
    pub trace: Vec<Event>,
}

impl Memory {
    /// The memory as it opens.
    pub fn open(sizes: Sizes, initial: &[u64]) -> Memory {
        let layout = Layout::new(sizes);
        let mut words = vec![0; layout.pool_end as usize];
        let mut record = layout.pool_base;
        for (component, &value) in initial.iter().enumerate() {
            words[component] = record;
            words[record as usize + 1] = value;
            record += 3;
        }
        words[layout.pool_counter() as usize] = record;
        words[layout.list_counter() as usize] = layout.list_base;
        Memory { layout, words, history: Vec::new(), trace: Vec::new() }
    }

    #[inline]
    pub fn load(&mut self, port: u32, word: u64) -> u64 {
        let answer = self.words[word as usize];
        self.trace.push(Event { port, step: Step::Load(word as u32), answer });
        answer
    }

    #[inline]
    pub fn store(&mut self, port: u32, word: u64, new: u64) {
        self.words[word as usize] = new;
        self.trace.push(Event { port, step: Step::Store(word as u32, new), answer: 0 });
    }

    /// The word as the addition found it.
    #[inline]
    pub fn add(&mut self, port: u32, word: u64, by: u64) -> u64 {
        let answer = self.words[word as usize];
        self.words[word as usize] = answer + by;
        self.trace.push(Event { port, step: Step::Add(word as u32, by), answer });
        answer
    }

    /// The word as the exchange found it: `old` where it was won.
    #[inline]
    pub fn exchange(&mut self, port: u32, word: u64, old: u64, new: u64) -> u64 {
        let answer = self.words[word as usize];
        if answer == old {
            self.words[word as usize] = new;
        }
        self.trace.push(Event { port, step: Step::Exchange(word as u32, old, new), answer });
        answer
    }

    /// The value of the record with this stamp, without a step.
    #[inline]
    pub fn value_of(&self, stamp: u64) -> u64 {
        self.words[stamp as usize + 1]
    }
}
