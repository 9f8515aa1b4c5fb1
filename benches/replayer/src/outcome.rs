//! The text of an outcome.

use crate::memory::Memory;
use crate::number::push_number;
use crate::places::Note;
use crate::port::Answer;
use crate::replay::{Called, Finish, Outcome};

/// The text of an outcome.
pub fn text(outcome: &Outcome) -> Vec<u8> {
    let mut text = Text(Vec::new());
    text.history(&outcome.memory);
    for (port, calls) in outcome.calls.iter().enumerate() {
        for (number, called) in calls.iter().enumerate() {
            text.called(port, number, called);
        }
    }
    text.end(&outcome.memory);
    text.0
}

/// A text that is written.
struct Text(Vec<u8>);

impl Text {
    /// These words and a number.
    #[inline]
    fn put(&mut self, words: &str, number: u64) {
        self.0.extend_from_slice(words.as_bytes());
        push_number(&mut self.0, number);
    }

    /// These words and a number, or a dash where there is none.
    #[inline]
    fn put_any(&mut self, words: &str, number: Option<u64>) {
        match number {
            Some(number) => self.put(words, number),
            None => {
                self.0.extend_from_slice(words.as_bytes());
                self.0.push(b'-');
            }
        }
    }

    fn history(&mut self, memory: &Memory) {
        for (place, entry) in memory.history.iter().enumerate() {
            self.put("applied ", place as u64);
            self.put(" port ", u64::from(entry.port));
            self.put(" component ", u64::from(entry.component));
            self.put(" value ", entry.value);
            self.put(" stamp ", entry.stamp);
            self.0.push(b'\n');
        }
    }

    fn called(&mut self, port: usize, number: usize, called: &Called) {
        self.put("call ", port as u64);
        self.put(" ", number as u64);
        match &called.finish {
            Some(finish) => self.finish(finish),
            None => self.0.extend_from_slice(b" unfinished"),
        }
        self.put(" steps ", called.steps);
        self.put(" span ", called.began as u64);
        self.put_any(" ", called.finish.as_ref().map(|finish| finish.ended as u64));
        self.0.push(b'\n');
    }

    #[inline]
    fn finish(&mut self, finish: &Finish) {
        match &finish.answer {
            Answer::Applied { stamp } => self.put(" applied ", *stamp),
            Answer::Lost { by } => self.put(" lost ", *by),
            Answer::Changed { by } => self.put(" changed ", *by),
            Answer::Refused { cause } => self.put(" refused ", u64::from(*cause)),
            Answer::Read { value, stamp } => {
                self.put(" read ", *value);
                self.put(" ", *stamp);
            }
            Answer::Scanned { values, .. } => {
                self.0.extend_from_slice(b" scanned");
                for &value in values {
                    self.put(" ", value);
                }
            }
        }
        match finish.note {
            Note::Place(place) => self.put(" place ", place as u64),
            Note::Prefix(prefix) => self.put(" prefix ", prefix as u64),
            Note::None => {}
        }
        if let Answer::Scanned { collects, borrowed, .. } = finish.answer {
            self.put(" collects ", u64::from(collects));
            self.put_any(" borrowed ", borrowed);
        }
    }

    fn end(&mut self, memory: &Memory) {
        self.0.extend_from_slice(b"values");
        for &stamp in &memory.words[..memory.layout.components as usize] {
            self.put(" ", memory.value_of(stamp));
        }
        self.put("\ntotal ", memory.trace.len() as u64);
        self.0.push(b'\n');
    }
}
