//! Why a call of a memory was refused. Each error has the number that the library returned.

use crate::Memory;
use std::error::Error;
use std::fmt;

/// Why a memory was not made. Nothing is left of the attempt.
#[derive(Clone, Copy, Debug, PartialEq, Eq)]
#[non_exhaustive]
pub enum OpenError {
    /// There are not 1 to 255 ports.
    Ports,
    /// There are not 1 to 65,536 components.
    Components,
    /// There are more than 65,536 list words.
    ListWords,
    /// The pool words of an arena, with the initial records and the room for each port, are more than 4,194,304.
    PoolWords,
    /// An allocation was refused.
    OutOfMemory,
    /// The library is of another version than this crate.
    OtherVersion,
}

/// Why a port was not given out.
#[derive(Clone, Copy, Debug, PartialEq, Eq)]
#[non_exhaustive]
pub enum PortError {
    /// All ports are in use.
    NoneFree,
    /// A clone of the memory was closed, or is about to be: its close was refused for want of memory.
    Closed,
    /// An allocation was refused.
    OutOfMemory,
}

/// Why a call of a port was refused. It applied nothing.
///
/// ```
/// use partial_door::{Memory, Refused};
///
/// let mut port = Memory::new(&[5])?.port()?;
/// let refused = port.read(1).unwrap_err();
/// assert_eq!((refused, refused.is_transient()), (Refused::Component, false));
/// assert!(Refused::Overtaken.is_transient());
/// assert_eq!(Refused::Overtaken.to_string(), "overtaken by changes of epoch: try again");
/// # Ok::<(), Box<dyn std::error::Error + Send + Sync>>(())
/// ```
#[derive(Clone, Copy, Debug, PartialEq, Eq)]
#[non_exhaustive]
pub enum Refused {
    /// An index isn't below the number of components.
    Component,
    /// The two lengths differ, or there are more positions than components.
    Length,
    /// The epoch was changed 16 times during the update. The same call may be answered when it is made again.
    Overtaken,
    /// The epoch has to be changed, and it is the last one that a word can name.
    EpochsSpent,
    /// A stamp is one of another memory.
    Stamp,
    /// A key is one of another memory.
    Key,
    /// An allocation was refused. Only the calls that say so take memory.
    OutOfMemory,
}

/// Why a memory was not closed.
#[derive(Debug)]
#[non_exhaustive]
pub enum CloseError {
    /// A port is in use. The memory is as it was.
    InUse(Memory),
    /// A clone of the memory was closed.
    Closed,
    /// An allocation was refused. The contents are as they were, and the memory may be closed later. It may give out
    /// no port anymore.
    OutOfMemory(Memory),
}

impl OpenError {
    pub(crate) fn of(code: u32) -> OpenError {
        match code {
            1 => OpenError::Components,
            3 => OpenError::ListWords,
            4 => OpenError::PoolWords,
            5 => OpenError::Ports,
            _ => OpenError::OutOfMemory,
        }
    }

    /// The number of the refusal: 5 for `Ports`, 1 for `Components`, 3 for `ListWords`, 4 for `PoolWords`, 6 for
    /// `OutOfMemory`, 31 for `OtherVersion`.
    #[must_use]
    pub fn code(self) -> u32 {
        match self {
            OpenError::Ports => 5,
            OpenError::Components => 1,
            OpenError::ListWords => 3,
            OpenError::PoolWords => 4,
            OpenError::OutOfMemory => 6,
            OpenError::OtherVersion => 31,
        }
    }
}

impl PortError {
    pub(crate) fn of(code: u32) -> PortError {
        match code {
            17 => PortError::Closed,
            21 => PortError::NoneFree,
            _ => PortError::OutOfMemory,
        }
    }

    /// The number of the refusal: 21 for `NoneFree`, 17 for `Closed`, 6 for `OutOfMemory`.
    #[must_use]
    pub fn code(self) -> u32 {
        match self {
            PortError::NoneFree => 21,
            PortError::Closed => 17,
            PortError::OutOfMemory => 6,
        }
    }
}

impl Refused {
    #[cold]
    pub(crate) fn of(code: u32) -> Refused {
        match code {
            7 => Refused::Component,
            19 => Refused::Length,
            25 => Refused::Overtaken,
            27 => Refused::EpochsSpent,
            _ => unreachable!("a port's handle holds a port"),
        }
    }

    /// Whether the same call may be answered when it is made again: for `Overtaken` alone. [`Port::retry`] does so.
    ///
    /// [`Port::retry`]: crate::Port::retry
    #[must_use]
    pub fn is_transient(self) -> bool {
        matches!(self, Refused::Overtaken)
    }

    /// The number of the refusal: 7 for `Component`, 19 for `Length`, 25 for `Overtaken`, 27 for `EpochsSpent`; and 28
    /// for `Stamp`, 29 for `Key` and 6 for `OutOfMemory`, which this crate finds and not the library.
    #[must_use]
    pub fn code(self) -> u32 {
        match self {
            Refused::Component => 7,
            Refused::Length => 19,
            Refused::Overtaken => 25,
            Refused::EpochsSpent => 27,
            Refused::Stamp => 28,
            Refused::Key => 29,
            Refused::OutOfMemory => 6,
        }
    }
}

impl CloseError {
    pub(crate) fn of(code: u32, memory: Memory) -> CloseError {
        match code {
            17 => CloseError::Closed,
            22 | 24 => CloseError::InUse(memory),
            _ => CloseError::OutOfMemory(memory),
        }
    }

    /// The number of the refusal: 22 for `InUse`, 17 for `Closed`, 6 for `OutOfMemory`.
    #[must_use]
    pub fn code(&self) -> u32 {
        match self {
            CloseError::InUse(_) => 22,
            CloseError::Closed => 17,
            CloseError::OutOfMemory(_) => 6,
        }
    }
}

impl fmt::Display for OpenError {
    fn fmt(&self, f: &mut fmt::Formatter<'_>) -> fmt::Result {
        f.write_str(match self {
            OpenError::Ports => "ports out of range: 1 to 255, with any number of components",
            OpenError::Components => "components out of range: 1 to 65536, with any number of ports",
            OpenError::ListWords => "list words out of range: at most 65536",
            OpenError::PoolWords => "pool words out of range: fewer leave room for these components and ports",
            OpenError::OutOfMemory => "out of memory",
            OpenError::OtherVersion => "the library is of another version than the crate",
        })
    }
}

impl fmt::Display for PortError {
    fn fmt(&self, f: &mut fmt::Formatter<'_>) -> fmt::Result {
        f.write_str(match self {
            PortError::NoneFree => "all ports are in use",
            PortError::Closed => "the memory is closed",
            PortError::OutOfMemory => "out of memory",
        })
    }
}

impl fmt::Display for Refused {
    fn fmt(&self, f: &mut fmt::Formatter<'_>) -> fmt::Result {
        f.write_str(match self {
            Refused::Component => "an index isn't below the number of components",
            Refused::Length => "two lengths differ, or one is too large",
            Refused::Overtaken => "overtaken by changes of epoch: try again",
            Refused::EpochsSpent => "epochs used up",
            Refused::Stamp => "a stamp is one of another memory",
            Refused::Key => "a key is one of another memory",
            Refused::OutOfMemory => "out of memory",
        })
    }
}

impl fmt::Display for CloseError {
    fn fmt(&self, f: &mut fmt::Formatter<'_>) -> fmt::Result {
        f.write_str(match self {
            CloseError::InUse(_) => "a port is in use",
            CloseError::Closed => "the memory is closed",
            CloseError::OutOfMemory(_) => "out of memory",
        })
    }
}

impl Error for OpenError {}
impl Error for PortError {}
impl Error for Refused {}
impl Error for CloseError {}
