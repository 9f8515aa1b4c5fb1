//! What calls answer.

use crate::Word;

/// Which update wrote a value, or that none did since the memory was made. Two updates of one program never have
/// the same stamp: it carries the number of its memory.
///
/// ```
/// use partial_door::Memory;
///
/// let memory = Memory::new(&[5])?;
/// let mut port = memory.port()?;
/// let before = port.read(0)?.stamp;
/// assert!(port.update(0, 5)?.is_applied());
/// assert_ne!(port.read(0)?.stamp, before);
/// # Ok::<(), Box<dyn std::error::Error + Send + Sync>>(())
/// ```
// The word stands last, and so not beside the value of a `Value`.
#[must_use]
#[repr(C)]
#[derive(Clone, Copy, Debug, PartialEq, Eq, Hash)]
pub struct Stamp {
    pub(crate) memory: u64,
    pub(crate) word: u64,
}

impl Stamp {
    /// The number of the epoch in which the update took effect. A memory begins in epoch 0.
    ///
    /// ```
    /// use partial_door::Memory;
    ///
    /// let memory = Memory::builder().ports(1).pool_words(8).open(&[5])?;
    /// let mut port = memory.port()?;
    /// assert_eq!(port.read(0)?.stamp.epoch(), 0);
    /// for value in 0..100 {
    ///     assert!(port.update(0, value)?.is_applied());
    /// }
    /// assert!(port.read(0)?.stamp.epoch() > 10);
    /// # Ok::<(), Box<dyn std::error::Error + Send + Sync>>(())
    /// ```
    #[must_use]
    pub fn epoch(self) -> u64 {
        self.word >> 23
    }
}

/// How an update ended.
///
/// ```
/// use partial_door::{Memory, Updated};
///
/// let mut port = Memory::new(&[5])?.port()?;
/// let updated = port.update(0, 6)?;
/// assert!(updated.is_applied());
/// assert_eq!(updated, Updated::Applied { stamp: port.read(0)?.stamp });
/// # Ok::<(), Box<dyn std::error::Error + Send + Sync>>(())
/// ```
#[must_use = "a lost update publishes nothing: look at the answer, or say `let _ =` where that doesn't matter"]
#[derive(Clone, Copy, Debug, PartialEq, Eq)]
pub enum Updated {
    /// It took effect: its entry is in the history.
    Applied {
        /// The stamp of the update.
        stamp: Stamp,
    },
    /// Another update to the same component took effect during the call and overwrote it. It publishes nothing of what its
    /// thread wrote before.
    Lost {
        /// The stamp of that other update.
        by: Stamp,
    },
}

impl Updated {
    /// Whether it took effect.
    #[must_use]
    pub fn is_applied(self) -> bool {
        matches!(self, Updated::Applied { .. })
    }
}

/// How a conditional update ended.
#[must_use = "the component may have changed, and nothing was applied then"]
#[derive(Clone, Copy, Debug, PartialEq, Eq)]
pub enum UpdatedIf {
    /// It took effect: the component had the expected stamp.
    Applied {
        /// The stamp of the update.
        stamp: Stamp,
    },
    /// It had no effect: the component had another stamp.
    Changed {
        /// The stamp that it had. The library has looked at no more than this: the value beside it would cost another load
        /// in each such call. A read returns the present value.
        by: Stamp,
    },
}

impl UpdatedIf {
    /// Whether it took effect.
    #[must_use]
    pub fn is_applied(self) -> bool {
        matches!(self, UpdatedIf::Applied { .. })
    }
}

/// A value, and the stamp of the update that wrote it.
// A read stores the value and the word of the stamp side by side. They are copied to two fields that aren't, so that no
// compiler copies them by one load, which waits until both stores have reached the cache.
#[must_use]
#[repr(C)]
#[derive(Clone, Copy, Debug, PartialEq, Eq)]
pub struct Value<T = u64> {
    /// The value of the component.
    pub value: T,
    /// The stamp of the update that wrote it.
    pub stamp: Stamp,
}

impl Value {
    /// The same value as one of a type.
    #[inline]
    pub(crate) fn typed<T: Word>(self) -> Value<T> {
        Value { value: T::from_word(self.value), stamp: self.stamp }
    }
}

/// An update that was made of the value before it: nothing came between the two. It was applied, so this may be dropped.
#[derive(Clone, Copy, Debug, PartialEq, Eq)]
pub struct Change<T = u64> {
    /// The value that the component had, and its stamp.
    pub before: Value<T>,
    /// The value that it has been given, and the stamp of the update.
    pub after: Value<T>,
}

/// How a scan was made. The values are in the slice that the scan was given, so this may be dropped.
#[derive(Clone, Copy, Debug, PartialEq, Eq)]
pub struct Scanned {
    /// How many collects it made: 0 for a scan of no position, otherwise 2 to r + 2 for r positions.
    pub collects: u32,
    /// The stamp of the update whose view the scan took, if it was helped.
    pub borrowed: Option<Stamp>,
}

/// The numbers that a call has stored here, each loaded by itself. Compilers copy arrays by loads of several numbers,
/// and such a load waits until all their stores have reached the cache: a processor forwards to it what one store has
/// written, but not what several have (store forwarding).
#[inline]
pub(crate) fn loaded<const N: usize>(stored: &[u64; N]) -> [u64; N] {
    // SAFETY: what is read is a number of the array.
    std::array::from_fn(|k| unsafe { std::ptr::read_volatile(&stored[k]) })
}
