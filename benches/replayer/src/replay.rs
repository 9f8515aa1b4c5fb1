//! The replay of a plan.

use crate::memory::Memory;
use crate::places::{Note, Places};
use crate::plan::{Call, Plan};
use crate::port::{Answer, Port};

/// How a call ended.
pub struct Finish {
    /// The length of the history then.
    pub ended: usize,
    pub answer: Answer,
    pub note: Note,
}

/// A call that was begun.
pub struct Called {
    /// The length of the history when it began.
    pub began: usize,
    pub steps: u64,
    pub finish: Option<Finish>,
}

/// What came of a plan.
pub struct Outcome {
    pub memory: Memory,
    /// The begun calls of each port.
    pub calls: Vec<Vec<Called>>,
}

/// A port with the calls that it has to make and those that it has begun.
struct Caller<'a> {
    port: Port,
    calls: &'a [Call],
    made: Vec<Called>,
    /// The call under way: where the history stood when it began, and its steps.
    under_way: Option<(usize, u64)>,
}

impl Caller<'_> {
    /// So many turns, or until no call is left.
    fn turns(&mut self, memory: &mut Memory, places: &mut Places, count: u64) {
        for _ in 0..count {
            if self.under_way.is_none() && !self.begin(memory) {
                return;
            }
            self.step(memory, places);
        }
    }

    /// Begins the next call that makes a step. Whether there is one.
    #[inline]
    fn begin(&mut self, memory: &Memory) -> bool {
        let seen = memory.history.len();
        while let Some(call) = self.calls.get(self.made.len()) {
            let Some(answer) = self.port.begin(call, memory.layout.components) else {
                self.under_way = Some((seen, 0));
                return true;
            };
            let note = match answer {
                Answer::Scanned { .. } => Note::Prefix(seen),
                _ => Note::None,
            };
            let finish = Some(Finish { ended: seen, answer, note });
            self.made.push(Called { began: seen, steps: 0, finish });
        }
        false
    }

    #[inline]
    fn step(&mut self, memory: &mut Memory, places: &mut Places) {
        let Some((began, steps)) = &mut self.under_way else { return };
        *steps += 1;
        let (began, steps) = (*began, *steps);
        let Some(answer) = self.port.step(memory) else { return };
        let positions = match &self.calls[self.made.len()] {
            Call::Scan { components } => components.as_slice(),
            _ => &[],
        };
        let note = places.note(memory, began, positions, &answer);
        let finish = Some(Finish { ended: memory.history.len(), answer, note });
        self.made.push(Called { began, steps, finish });
        self.under_way = None;
    }

    /// The calls that were begun. The last one may be unfinished.
    fn ended(mut self) -> Vec<Called> {
        if let Some((began, steps)) = self.under_way {
            self.made.push(Called { began, steps, finish: None });
        }
        self.made
    }
}

/// Makes the turns of a plan, and returns what came of them.
pub fn replay(plan: &Plan) -> Outcome {
    let components = plan.sizes.components;
    let mut memory = Memory::open(plan.sizes, &plan.initial);
    let mut places = Places::new(components);
    let callers = plan.ports.iter().zip(0..).map(|(calls, number)| Caller {
        port: Port::new(number, components),
        calls,
        made: Vec::new(),
        under_way: None,
    });
    let mut callers: Vec<Caller> = callers.collect();
    for &(port, count) in &plan.turns {
        callers[port as usize].turns(&mut memory, &mut places, u64::from(count));
    }
    if plan.rest {
        for caller in &mut callers {
            caller.turns(&mut memory, &mut places, u64::MAX);
        }
    }
    Outcome { memory, calls: callers.into_iter().map(Caller::ended).collect() }
}
