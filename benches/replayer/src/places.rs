//! Where in the history the calls have their places.

use crate::memory::{Applied, Memory};
use crate::port::Answer;

/// Where a call has its place.
#[derive(Clone, Copy)]
pub enum Note {
    /// At this entry.
    Place(usize),
    /// After so many entries.
    Prefix(usize),
    None,
}

/// Room to find the places of scans: the value that is wanted of each component.
pub struct Places(Vec<Option<u64>>);

impl Places {
    pub fn new(components: u32) -> Places {
        Places(vec![None; components as usize])
    }

    /// The note of a call with this answer, that began after so many entries and has just ended. The
    /// positions are those of a scan.
    #[inline]
    pub fn note(&mut self, memory: &Memory, began: usize, positions: &[u32], answer: &Answer) -> Note {
        match answer {
            Answer::Applied { stamp: by } | Answer::Lost { by } => {
                place_of(&memory.history, began, *by).map_or(Note::None, Note::Place)
            }
            Answer::Read { stamp: by, .. } | Answer::Changed { by } => {
                let place = place_of(&memory.history, began, *by);
                Note::Prefix(place.map_or(began, |place| place + 1))
            }
            Answer::Scanned { values, .. } => Note::Prefix(self.prefix(memory, began, positions, values)),
            Answer::Refused { .. } => Note::None,
        }
    }

    /// The least prefix from `began` on at which the positions have these values.
    fn prefix(&mut self, memory: &Memory, began: usize, positions: &[u32], values: &[u64]) -> usize {
        let mut differing = 0;
        if memory.history.len() > began {
            for (&position, &value) in positions.iter().zip(values) {
                let wanted = self.0[position as usize].replace(value);
                let shown = memory.value_of(memory.words[position as usize]);
                differing += usize::from(wanted.is_none() && shown != value);
            }
        }
        let mut least = memory.history.len();
        for (prefix, entry) in memory.history.iter().enumerate().skip(began).rev() {
            if let Some(wanted) = self.0[entry.component as usize] {
                let before = memory.value_of(memory.words[entry.stamp as usize]);
                differing += usize::from(before != wanted);
                differing -= usize::from(entry.value != wanted);
            }
            if differing == 0 {
                least = prefix;
            }
        }
        for &position in positions {
            self.0[position as usize] = None;
        }
        least
    }
}

/// The place from `began` on whose entry has that stamp.
#[inline]
fn place_of(history: &[Applied], began: usize, stamp: u64) -> Option<usize> {
    let place = history[began..].iter().rposition(|entry| entry.stamp == stamp)?;
    Some(began + place)
}
