//! The calls of the plain algorithm behind a boundary as the door has one: each is a function that is never inlined,
//! which writes its answer where its caller says, and returns a number. So what the boundary takes can be distinguished
//! from what the proved bodies take.

use crate::answers::{Scanned, Updated, UpdatedIf, Value};
use crate::objects::Face;
use crate::raw::Port;
use partial_door::opening::Refused;

/// A port of the plain algorithm, whose calls go through the functions below.
pub struct Called(pub Port);

// Writes the answer where the caller says, or gives the number of the refusal.
fn answered<A>(made: Result<A, Refused>, answer: &mut A) -> u32 {
    match made {
        Ok(made) => {
            *answer = made;
            0
        }
        Err(refused) => refused.code(),
    }
}

#[inline(never)]
fn update(port: &mut Port, component: u32, value: u64, answer: &mut Updated) -> u32 {
    answered(port.update(component, value), answer)
}

#[inline(never)]
fn update_if(port: &mut Port, component: u32, expected: u64, value: u64, answer: &mut UpdatedIf) -> u32 {
    answered(port.update_if(component, expected, value), answer)
}

#[inline(never)]
fn read(port: &mut Port, component: u32, answer: &mut Value) -> u32 {
    answered(port.read(component), answer)
}

#[inline(never)]
fn scan(port: &mut Port, which: &[u32], into: &mut [u64], answer: &mut Scanned) -> u32 {
    answered(port.scan(which, into), answer)
}

impl Called {
    fn value(&mut self, component: u32) -> Value {
        let mut answer = Value { value: 0, stamp: 0 };
        assert_eq!(read(&mut self.0, component, &mut answer), 0, "the component is there");
        answer
    }
}

impl Face for Called {
    fn update(&mut self, component: u32, value: u64) -> bool {
        update(&mut self.0, component, value, &mut Updated::Lost { by: 0 }) == 0
    }
    fn add_one(&mut self, component: u32) -> bool {
        let seen = self.value(component);
        let mut answer = UpdatedIf::Changed { by: 0 };
        update_if(&mut self.0, component, seen.stamp, seen.value + 1, &mut answer) == 0
    }
    fn read(&mut self, component: u32) -> u64 {
        self.value(component).value
    }
    fn scan(&mut self, which: &[u32], into: &mut [u64]) -> bool {
        scan(&mut self.0, which, into, &mut Scanned { collects: 0, borrowed: None }) == 0
    }
}

#[cfg(test)]
mod tests {
    use super::*;
    use crate::raw::open;
    use partial_door::opening::Sizes;

    // Two components: the pool begins at word 10, after 2 + 4 words and 4 slots, and the first free word is 16.
    #[test]
    fn calls_answer_into_the_callers_memory() {
        let mut port = Called(open(&[10, 20], Sizes { slots: 4, list_words: 0, pool_words: 30 }, 1).remove(0));
        let mut updated = Updated::Lost { by: 0 };
        assert_eq!(update(&mut port.0, 1, 21, &mut updated), 0);
        assert_eq!(updated, Updated::Applied { stamp: 16 });
        let mut changed = UpdatedIf::Applied { stamp: 0 };
        assert_eq!(update_if(&mut port.0, 1, 13, 5, &mut changed), 0);
        assert_eq!(changed, UpdatedIf::Changed { by: 16 });
        assert_eq!(port.value(1), Value { value: 21, stamp: 16 });
        let (mut into, mut scanned) = ([0; 2], Scanned { collects: 0, borrowed: None });
        assert_eq!(scan(&mut port.0, &[1, 0], &mut into, &mut scanned), 0);
        assert_eq!((into, scanned), ([21, 10], Scanned { collects: 2, borrowed: None }));
    }

    #[test]
    fn refused_calls_give_their_number() {
        let mut port = Called(open(&[10], Sizes { slots: 1, list_words: 0, pool_words: 3 }, 1).remove(0));
        let mut updated = Updated::Lost { by: 5 };
        assert_eq!(update(&mut port.0, 1, 0, &mut updated), 7);
        assert_eq!(update(&mut port.0, 0, 0, &mut updated), 9);
        assert_eq!(updated, Updated::Lost { by: 5 });
        assert!(!port.scan(&[0], &mut [0]));
    }
}
