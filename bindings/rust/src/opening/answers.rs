//! What calls are given and what they answer.

use crate::raw;

/// The sizes of a memory, apart from the number of its components. They say how long an opening lives.
#[derive(Clone, Copy, Debug, PartialEq, Eq)]
pub struct Sizes {
    /// How many scans of some position may announce themselves: 1 to 65,536.
    pub slots: u32,
    /// How many list words there are, for lists of vacated slots: at most 65,536.
    pub list_words: u32,
    /// How many pool words there are, for records and announcements: at least 3 for each component, and at most
    /// 4,194,304.
    pub pool_words: u32,
}

impl Default for Sizes {
    /// The greatest memory: 65,536 slots, 65,536 list words and 4,194,304 pool words, about 35 MB.
    fn default() -> Sizes {
        Sizes { slots: 65_536, list_words: 65_536, pool_words: 4_194_304 }
    }
}

impl Sizes {
    pub(crate) fn raw(self) -> raw::Sizes {
        raw::Sizes { slots: self.slots, list_words: self.list_words, pool_words: self.pool_words }
    }
}

/// Which update wrote a value, or that none did since the opening. Two updates of one program never have the
/// same stamp: it carries the number of its opening.
///
/// ```
/// use partial_door::opening::{open, Refused, Sizes};
///
/// let sizes = Sizes { slots: 10, list_words: 0, pool_words: 100 };
/// let (memory, mut ports) = open(&[5], sizes, 1)?;
/// let before = ports[0].read(0)?.stamp;
/// let mut closed = memory.close(ports)?;
/// let (_memory, mut ports) = closed.reopen(1, sizes, 1)?;
/// assert_eq!(ports[0].update_if(0, before, 6), Err(Refused::Stamp));
/// assert_eq!(ports[0].read(0)?.value, 5);
/// # Ok::<(), Box<dyn std::error::Error + Send + Sync>>(())
/// ```
// The word stands last, and so not beside the value of a `Value`.
#[must_use]
#[repr(C)]
#[derive(Clone, Copy, Debug, PartialEq, Eq, Hash)]
pub struct Stamp {
    pub(crate) opening: u64,
    pub(crate) word: u64,
}

impl Stamp {
    /// The number of the word at which the update's record stands, which no other record of its opening has.
    #[must_use]
    pub fn word(self) -> u64 {
        self.word
    }
}

/// How an update ended.
#[must_use = "a lost update publishes nothing: look at the answer, or say `let _ =` where that doesn't matter"]
#[derive(Clone, Copy, Debug, PartialEq, Eq)]
pub enum Updated {
    /// It took effect: its entry is in the history.
    Applied {
        /// The stamp of the update.
        stamp: Stamp,
    },
    /// Another update to the same component took effect during the call and overwrote it. It publishes nothing of what its
    /// thread wrote before.
    Lost {
        /// The stamp of that other update.
        by: Stamp,
    },
}

impl Updated {
    /// Whether it took effect.
    #[must_use]
    pub fn is_applied(self) -> bool {
        matches!(self, Updated::Applied { .. })
    }
}

/// How a conditional update ended.
#[must_use = "the component may have changed, and nothing was applied then"]
#[derive(Clone, Copy, Debug, PartialEq, Eq)]
pub enum UpdatedIf {
    /// It took effect: its entry is in the history.
    Applied {
        /// The stamp of the update.
        stamp: Stamp,
    },
    /// It had no effect: the component had another stamp than the expected one.
    Changed {
        /// The stamp that it had. The library has looked at no more than this: the value beside it would cost another load
        /// in each such call. A read returns the present value.
        by: Stamp,
    },
}

impl UpdatedIf {
    /// Whether it took effect.
    #[must_use]
    pub fn is_applied(self) -> bool {
        matches!(self, UpdatedIf::Applied { .. })
    }
}

/// A value, and the stamp of the update that wrote it.
// A read stores the value and the word of the stamp side by side. They are copied to two fields that aren't, so that no
// compiler copies them by one load, which waits until both stores have reached the cache.
#[must_use]
#[repr(C)]
#[derive(Clone, Copy, Debug, PartialEq, Eq)]
pub struct Value {
    /// The value of the component.
    pub value: u64,
    /// The stamp of the update that wrote it.
    pub stamp: Stamp,
}

/// An update that was made of the value before it: nothing came between the two. It was applied, so this may be dropped.
#[derive(Clone, Copy, Debug, PartialEq, Eq)]
pub struct Change {
    /// The value that the component had, and its stamp.
    pub before: Value,
    /// The value that it has been given, and the stamp of the update.
    pub after: Value,
}

/// How a scan was made. The values are in the slice that the scan was given, so this may be dropped.
#[derive(Clone, Copy, Debug, PartialEq, Eq)]
pub struct Scanned {
    /// How many collects it made: 0 for a scan of no position, otherwise 2 to r + 2 for r positions.
    pub collects: u32,
    /// The stamp of the update whose view the scan took, if it was helped.
    pub borrowed: Option<Stamp>,
}
