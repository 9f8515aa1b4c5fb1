//! Single openings: memories of fixed sizes, which wear out. An opening takes as many updates and scans as its
//! [`Sizes`] have room for; then its ports are marked, their calls are refused, and it is closed and reopened.
//!
//! A [`Memory`](crate::Memory) needs none of this. Each call of an opening makes at most a fixed number of atomic
//! steps; of a [`Memory`](crate::Memory)'s calls it is proved that each ends.
//!
//! ```
//! use partial_door::opening::{open, Sizes};
//!
//! let sizes = Sizes { slots: 1000, list_words: 1000, pool_words: 100_000 };
//! let (memory, mut ports) = open(&[10, 20, 30], sizes, 2)?;
//! let mut second = ports.pop().expect("two ports");
//! let mut first = ports.pop().expect("two ports");
//! assert!(first.update(0, 11)?.is_applied());
//! assert!(second.update(2, 33)?.is_applied());
//! assert_eq!(first.scan_array([2, 0])?, [33, 11]);
//! assert_eq!(memory.close(vec![first, second])?.values(), [11, 20, 33]);
//! # Ok::<(), Box<dyn std::error::Error + Send + Sync>>(())
//! ```
//!
//! An opening takes one table of `components + 4 + slots + list_words + pool_words` words of 8 bytes, and some
//! buffers of the components' length for each port. [`open`], [`Memory::close`] and [`Closed::reopen`] take memory,
//! and dropping a port may; no call of a port does.

mod answers;
mod error;
mod memory;
mod port;

pub use answers::{Change, Scanned, Sizes, Stamp, Updated, UpdatedIf, Value};
pub use error::{CloseError, OpenError, Refused, TwoMemories};
pub use memory::{open, Closed, Memory};
pub use port::Port;
