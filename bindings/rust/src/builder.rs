//! How a memory is made.

use crate::memory::{next_number, Memory};
use crate::raw;
use crate::sizes;
use crate::OpenError;

/// How many ports a memory has, and how large its arenas are. There are two arenas for each port.
///
/// An arena of `m` components and `p` ports has `5 m + 4 + list_words + pool_words` words of 8 bytes, room for the
/// greatest claim of each port, and slots. When `m` times `p` is at most 65,536, the room is `(97 + 2 m) p` words, and
/// there is a slot for each 8 pool words and one for each port. When it is more, the room is `96 p` words, and there is a
/// slot for each port. The words are rounded up to a multiple of 16, unless there are 65,536 slots, the most. While a
/// memory opens, its words are there twice.
///
/// With up to 65,536 components times ports, a scan whose two collects differ announces itself, so that updates help it.
/// With more it collects again, up to 64 times, and then changes the epoch: it has the values with which the next one
/// begins. That takes longer the more components there are, and updates beside it have to enter the next epoch.
///
/// ```
/// use partial_door::Memory;
///
/// let memory = Memory::builder().ports(4).pool_words(4096).open(&[1, 2, 3])?;
/// assert_eq!(memory.port()?.read(2)?.value, 3);
/// # Ok::<(), Box<dyn std::error::Error + Send + Sync>>(())
/// ```
#[must_use]
#[derive(Clone, Copy, Debug, PartialEq, Eq)]
pub struct Builder {
    ports: u32,
    arena: raw::Arena,
}

impl Default for Builder {
    /// 16 ports, 1,024 list words, and as many pool words as suit the numbers of ports and components. A memory with more
    /// ports takes more than its share: each has two arenas, and room for a claim in all of them.
    fn default() -> Builder {
        Builder { ports: 16, arena: raw::Arena { list_words: 1024, pool_words: 0 } }
    }
}

impl Builder {
    /// How many ports there are: 1 to 255. Fewer ports take less memory, and with fewer of them scans are helped in
    /// memories of more components.
    ///
    /// ```
    /// use partial_door::{Memory, PortError};
    ///
    /// let memory = Memory::builder().ports(1).open(&[1])?;
    /// let _port = memory.port()?;
    /// assert_eq!(memory.port().err(), Some(PortError::NoneFree));
    /// # Ok::<(), Box<dyn std::error::Error + Send + Sync>>(())
    /// ```
    pub fn ports(mut self, ports: u32) -> Builder {
        self.ports = ports;
        self
    }

    /// How many list words an arena has: at most 65,536. Scans use them to list the slots that are no longer in use.
    ///
    /// ```
    /// use partial_door::{Memory, OpenError};
    ///
    /// assert_eq!(Memory::builder().list_words(65_537).open(&[1]).err(), Some(OpenError::ListWords));
    /// ```
    pub fn list_words(mut self, words: u32) -> Builder {
        self.arena.list_words = words;
        self
    }

    /// How many pool words of an arena are claimed before the epoch changes. An update takes 3 of them, or 4 and 2
    /// more for each component of a view that it stores; a scan claims 1, and 1 more for each position. With the words
    /// of its record an update claims up to 93 more, which its port keeps for later updates of the epoch: all ports
    /// keep an eighth of the pool words at most. The words, the room for the greatest claim of each port, and `3 m` words
    /// for the initial values of `m` components are at most 4,194,304 together.
    ///
    /// 0 is the number that a memory has by default: 16,384 for each port, but no more than 131,072 divided by the number
    /// of ports; or 16 for each component, but no more than 33,554,432 divided by the number of ports, if that is more.
    /// It is no more than there is room for, and never below 8,192. With it a memory of any number of components and
    /// ports has room.
    ///
    /// ```
    /// use partial_door::{Memory, OpenError};
    ///
    /// assert_eq!(Memory::builder().pool_words(4_194_305).open(&[1]).err(), Some(OpenError::PoolWords));
    /// assert_eq!(Memory::builder().pool_words(4_190_000).open(&[0; 79]).err(), Some(OpenError::PoolWords));
    /// assert!(Memory::builder().ports(4).open(&[0; 40_000]).is_ok());
    /// ```
    pub fn pool_words(mut self, words: u32) -> Builder {
        self.arena.pool_words = words;
        self
    }

    /// The greatest number of components that a memory with so many ports and such arenas may have: 65,536, unless it is
    /// to have more than 3,860,000 pool words. When it is 0 no memory is made. With more than 3,900,000 pool words some
    /// smaller numbers may be refused: as many as let scans announce themselves, for which an arena needs more room.
    ///
    /// ```
    /// use partial_door::Memory;
    ///
    /// assert_eq!(Memory::builder().max_components(), 65_536);
    /// assert_eq!(Memory::builder().ports(255).max_components(), 65_536);
    /// assert_eq!(Memory::builder().pool_words(4_190_000).max_components(), 78);
    /// assert_eq!(Memory::builder().ports(256).max_components(), 0);
    /// ```
    #[must_use]
    pub fn max_components(&self) -> usize {
        sizes::max_components(self.ports, &self.arena)
    }

    /// Makes a memory whose components hold these values.
    ///
    /// # Errors
    /// The first that holds: [`OpenError::Ports`] when there are not 1 to 255 ports; [`OpenError::Components`] when
    /// there are not 1 to 65,536 values; [`OpenError::ListWords`] or [`OpenError::PoolWords`] when an arena would
    /// have too many of them; [`OpenError::OutOfMemory`] when an allocation was refused. Nothing is left of the attempt.
    pub fn open(self, initial: &[u64]) -> Result<Memory, OpenError> {
        self.open_as(next_number(), initial)
    }

    /// Makes the memory of this number, which no other memory has.
    pub(crate) fn open_as(self, number: u64, initial: &[u64]) -> Result<Memory, OpenError> {
        Memory::open(number, initial, self.ports, &self.arena)
    }
}
