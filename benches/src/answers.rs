//! What the plain algorithm's calls answer, with its stamps as they are.

/// How an update ended: applied with this stamp, or overwritten by the update with that one.
#[derive(Clone, Copy, Debug, PartialEq, Eq)]
pub enum Updated {
    Applied { stamp: u64 },
    Lost { by: u64 },
}

/// How a conditional update ended: applied with this stamp, or the component had that other one.
#[derive(Clone, Copy, Debug, PartialEq, Eq)]
pub enum UpdatedIf {
    Applied { stamp: u64 },
    Changed { by: u64 },
}

/// A value and its stamp.
#[derive(Clone, Copy, Debug, PartialEq, Eq)]
pub struct Value {
    pub value: u64,
    pub stamp: u64,
}

/// How many collects a scan made, and the stamp of the update whose view it took.
#[derive(Clone, Copy, Debug, PartialEq, Eq)]
pub struct Scanned {
    pub collects: u32,
    pub borrowed: Option<u64>,
}

#[cfg(test)]
mod doors {
    use super::*;

    impl From<partial_door::opening::Updated> for Updated {
        fn from(answer: partial_door::opening::Updated) -> Updated {
            match answer {
                partial_door::opening::Updated::Applied { stamp } => Updated::Applied { stamp: stamp.word() },
                partial_door::opening::Updated::Lost { by } => Updated::Lost { by: by.word() },
            }
        }
    }

    impl From<partial_door::opening::UpdatedIf> for UpdatedIf {
        fn from(answer: partial_door::opening::UpdatedIf) -> UpdatedIf {
            match answer {
                partial_door::opening::UpdatedIf::Applied { stamp } => UpdatedIf::Applied { stamp: stamp.word() },
                partial_door::opening::UpdatedIf::Changed { by } => UpdatedIf::Changed { by: by.word() },
            }
        }
    }

    impl From<partial_door::opening::Value> for Value {
        fn from(answer: partial_door::opening::Value) -> Value {
            Value {
                value: answer.value,
                stamp: answer.stamp.word(),
            }
        }
    }

    impl From<partial_door::opening::Scanned> for Scanned {
        fn from(answer: partial_door::opening::Scanned) -> Scanned {
            Scanned {
                collects: answer.collects,
                borrowed: answer.borrowed.map(partial_door::opening::Stamp::word),
            }
        }
    }
}
