//! Why a call was refused. Each error has the number that the library returned.

use std::error::Error;
use std::fmt;

/// Why a memory was not opened. Nothing is left of the attempt.
#[derive(Clone, Copy, Debug, PartialEq, Eq)]
#[non_exhaustive]
pub enum OpenError {
    /// There are not 1 to 65,536 components.
    Components,
    /// There are not 1 to 65,536 slots.
    Slots,
    /// There are more than 65,536 list words.
    ListWords,
    /// There are fewer than three pool words for each component, or more than 4,194,304.
    PoolWords,
    /// There are not 1 to 64 ports.
    Ports,
    /// The closed memory has more components than the new one would have.
    TooSmall,
    /// An allocation was refused.
    OutOfMemory,
    /// The library is of another version than this crate.
    OtherVersion,
}

/// Why an update, a read or a scan was refused. It applied nothing.
#[derive(Clone, Copy, Debug, PartialEq, Eq)]
#[non_exhaustive]
pub enum Refused {
    /// An index isn't below the number of components.
    Component,
    /// The slots are used up for this port: its scans of some position are refused from now on.
    SlotsSpent,
    /// The pool is used up for this port: its updates and its scans of some position are refused
    /// from now on.
    PoolSpent,
    /// The two lengths differ, or there are more positions than components.
    Length,
    /// The expected stamp is one of another opening.
    Stamp,
}

/// Why a memory was not closed.
#[derive(Debug)]
#[non_exhaustive]
pub enum CloseError {
    /// The memory could not be closed with these ports. A port of it is in use elsewhere, one that was
    /// given is of another memory, or an allocation was refused before the close began or when a port was
    /// returned. The memory and the ports come back, by their numbers, and nothing of them has changed. When an allocation is
    /// refused as a port is taken out again, the memory keeps that port: it isn't in the list, and the
    /// next close has it.
    NotAll(super::Memory, Vec<super::Port>),
    /// An allocation was refused, and the contents are lost.
    OutOfMemory,
}

/// The two ports are of two memories. Both are as they were.
#[derive(Clone, Copy, Debug, PartialEq, Eq)]
pub struct TwoMemories;

impl OpenError {
    pub(crate) fn of(code: u32) -> OpenError {
        match code {
            1 => OpenError::Components,
            2 => OpenError::Slots,
            3 => OpenError::ListWords,
            4 => OpenError::PoolWords,
            5 => OpenError::Ports,
            13 => OpenError::TooSmall,
            _ => OpenError::OutOfMemory,
        }
    }

    /// The number of the refusal: 1 to 4 for a size, in their order, 5 for `Ports`, 6 for `OutOfMemory`,
    /// 13 for `TooSmall`, 31 for `OtherVersion`.
    #[must_use]
    pub fn code(self) -> u32 {
        match self {
            OpenError::Components => 1,
            OpenError::Slots => 2,
            OpenError::ListWords => 3,
            OpenError::PoolWords => 4,
            OpenError::Ports => 5,
            OpenError::TooSmall => 13,
            OpenError::OutOfMemory => 6,
            OpenError::OtherVersion => 31,
        }
    }
}

impl Refused {
    pub(crate) fn of(code: u32) -> Refused {
        match code {
            7 => Refused::Component,
            8 => Refused::SlotsSpent,
            9 => Refused::PoolSpent,
            19 => Refused::Length,
            _ => unreachable!("a port's handle holds a port"),
        }
    }

    /// The number of the refusal: 7 for `Component`, 8 for `SlotsSpent`, 9 for `PoolSpent`, 19 for
    /// `Length`, and 28 for `Stamp`, which this crate finds and not the library.
    #[must_use]
    pub fn code(self) -> u32 {
        match self {
            Refused::Component => 7,
            Refused::SlotsSpent => 8,
            Refused::PoolSpent => 9,
            Refused::Length => 19,
            Refused::Stamp => 28,
        }
    }
}

impl CloseError {
    /// The number of the refusal: 22 for `NotAll`, 6 for `OutOfMemory`. When the library returns 24, since
    /// another handle still references the memory, `close` reports `NotAll` too; one call after the other on
    /// a memory never leads there.
    #[must_use]
    pub fn code(&self) -> u32 {
        match self {
            CloseError::NotAll(..) => 22,
            CloseError::OutOfMemory => 6,
        }
    }
}

impl fmt::Display for OpenError {
    fn fmt(&self, f: &mut fmt::Formatter<'_>) -> fmt::Result {
        f.write_str(match self {
            OpenError::Components => "components out of range",
            OpenError::Slots => "slots out of range",
            OpenError::ListWords => "list words out of range",
            OpenError::PoolWords => "pool words out of range",
            OpenError::Ports => "ports out of range",
            OpenError::TooSmall => "fewer components than before",
            OpenError::OutOfMemory => "out of memory",
            OpenError::OtherVersion => "the library is of another version than the crate",
        })
    }
}

impl fmt::Display for Refused {
    fn fmt(&self, f: &mut fmt::Formatter<'_>) -> fmt::Result {
        f.write_str(match self {
            Refused::Component => "an index isn't below the number of components",
            Refused::SlotsSpent => "the slots are used up for this port",
            Refused::PoolSpent => "the pool is used up for this port",
            Refused::Length => "two lengths differ, or one is too large",
            Refused::Stamp => "the expected stamp is one of another opening",
        })
    }
}

impl fmt::Display for CloseError {
    fn fmt(&self, f: &mut fmt::Formatter<'_>) -> fmt::Result {
        f.write_str(match self {
            CloseError::NotAll(..) => "a port is in use elsewhere, or of another memory",
            CloseError::OutOfMemory => "out of memory",
        })
    }
}

impl fmt::Display for TwoMemories {
    fn fmt(&self, f: &mut fmt::Formatter<'_>) -> fmt::Result {
        f.write_str("the ports are of two memories")
    }
}

impl Error for OpenError {}
impl Error for Refused {}
impl Error for CloseError {}
impl Error for TwoMemories {}
