//! The embedded scan of a list of positions, step by step.

use crate::memory::Memory;

/// Which step is due.
#[derive(Clone, Copy)]
enum Stage {
    Collect,
    Value,
    View,
    ViewLength,
    Index { at: u64, end: u64 },
    PairValue { at: u64, end: u64, index: u64 },
}

/// What was loaded for a position: its latest record, and whether it has changed.
struct Row {
    stamp: u64,
    changed: bool,
}

/// The embedded scans of a port, one after the other.
pub struct Embedded {
    stage: Stage,
    pub positions: Vec<u32>,
    rows: Vec<Row>,
    /// Whether the view of a third record is shared by its reference, and not loaded.
    shares: bool,
    position: usize,
    moved: bool,
    pub collects: u32,
    /// The third record of a position, if one was shown.
    pub third: Option<u64>,
    /// The reference of that record's view.
    pub view: u64,
    /// The values of the positions, where no view was borrowed.
    values: Vec<u64>,
    /// The values in a borrowed view, by component.
    borrowed: Vec<u64>,
}

impl Embedded {
    pub fn new(components: u32) -> Embedded {
        Embedded {
            stage: Stage::Collect,
            positions: Vec::new(),
            rows: Vec::new(),
            shares: false,
            position: 0,
            moved: false,
            collects: 0,
            third: None,
            view: 0,
            values: Vec::new(),
            borrowed: vec![0; components as usize],
        }
    }

    /// Begins the embedded scan of these positions.
    pub fn begin(&mut self, positions: &[u32], shares: bool) {
        self.stage = Stage::Collect;
        self.positions.clear();
        self.positions.extend_from_slice(positions);
        self.rows.clear();
        self.values.clear();
        self.shares = shares;
        self.position = 0;
        self.moved = false;
        self.collects = 0;
        self.third = None;
        self.view = 0;
    }

    /// The values that were found for the positions.
    pub fn values(&self) -> Vec<u64> {
        match self.third {
            None => self.values.clone(),
            Some(_) => self.positions.iter().map(|&index| self.borrowed[index as usize]).collect(),
        }
    }

    /// The pairs of a view of its own of a record: indices and values.
    pub fn pairs(&self) -> impl Iterator<Item = (u32, u64)> + '_ {
        self.positions.iter().copied().zip(self.values.iter().copied())
    }

    /// Makes the due step. Whether it was the last one.
    #[inline]
    pub fn step(&mut self, port: u32, memory: &mut Memory) -> bool {
        match self.stage {
            Stage::Collect => {
                self.collect(port, memory);
                false
            }
            Stage::Value => {
                let stamp = self.rows[self.values.len()].stamp;
                self.values.push(memory.load(port, stamp + 1));
                self.values.len() == self.rows.len()
            }
            _ => self.borrow(port, memory),
        }
    }

    #[inline]
    fn collect(&mut self, port: u32, memory: &mut Memory) {
        let position = self.position;
        let stamp = memory.load(port, u64::from(self.positions[position]));
        if self.collects == 0 {
            self.rows.push(Row { stamp, changed: false });
        } else {
            let row = &mut self.rows[position];
            if row.stamp != stamp {
                if row.changed {
                    self.collects += 1;
                    self.third = Some(stamp);
                    self.stage = Stage::View;
                    return;
                }
                *row = Row { stamp, changed: true };
                self.moved = true;
            }
        }
        self.position += 1;
        if self.position == self.positions.len() {
            self.end_collect();
        }
    }

    #[inline]
    fn end_collect(&mut self) {
        self.collects += 1;
        self.position = 0;
        if self.collects > 1 && !self.moved {
            self.stage = Stage::Value;
        }
        self.moved = false;
    }

    fn borrow(&mut self, port: u32, memory: &mut Memory) -> bool {
        self.stage = match self.stage {
            Stage::ViewLength => {
                let length = memory.load(port, self.view);
                let at = self.view + 1;
                Stage::Index { at, end: at + 2 * length }
            }
            Stage::Index { at, end } => {
                let index = memory.load(port, at);
                Stage::PairValue { at: at + 1, end, index }
            }
            Stage::PairValue { at, end, index } => {
                self.borrowed[index as usize] = memory.load(port, at);
                Stage::Index { at: at + 1, end }
            }
            _ => {
                self.view = memory.load(port, self.third.unwrap_or(0) + 2);
                Stage::ViewLength
            }
        };
        match self.stage {
            Stage::Index { at, end } => at == end,
            Stage::ViewLength => self.shares || self.view == 0,
            _ => false,
        }
    }
}
