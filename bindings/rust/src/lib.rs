#![cfg_attr(
    feature = "plain",
    doc = "**Not proved: this is the feature `plain`.** The calls are answered by plain Rust with a lock, for tests.\n\n"
)]
//! A wait-free, linearizable partial snapshot object: components of 64 bits that many threads share. Any
//! port may update or read any component, and scan any few of them as they stood together at one moment.
//! Each call of a port ends, whatever other threads do; [`Port::modify`] and [`Port::change`] make such calls until no
//! other update comes between. A [`Memory`] never wears out.
//!
//! ```
//! use partial_door::Memory;
//!
//! let memory = Memory::new(&[10, 20, 30])?;
//! let mut first = memory.port()?;
//! assert!(first.update(0, 11)?.is_applied());
//! assert!(first.update(2, 33)?.is_applied());
//! assert_eq!(first.scan_array([2, 0])?, [33, 11]);
//!
//! let mut second = memory.port()?;
//! let beside = std::thread::spawn(move || second.update(1, 21));
//! assert!(first.update(2, 34)?.is_applied());
//! assert!(beside.join().expect("no panic")?.is_applied());
//! drop(first);
//! assert_eq!(memory.close()?, [11, 21, 34]);
//! # Ok::<(), Box<dyn std::error::Error + Send + Sync>>(())
//! ```
//!
//! Components may have types: a [`Layout`] hands out a [`Key`] for each, and the calls by keys take and return its values.
//!
//! ```
//! use partial_door::Layout;
//!
//! let mut layout = Layout::new();
//! let (load, ready) = (layout.add(0.5_f64), layout.add(false));
//! let mut port = layout.open()?.port()?;
//! port.change(load, |load| load + 1.0)?;
//! assert_eq!(port.snapshot((load, ready))?, (1.5, false));
//! # Ok::<(), Box<dyn std::error::Error + Send + Sync>>(())
//! ```
//!
//! Indices of components are `u32`, as in the library: a scan hands its slice over as it is, where one of `usize` would
//! have to be copied, and no memory has more than 65,536 components.
//!
//! [`opening`] has memories of fixed sizes that wear out.
//!
//! # Memory ordering
//!
//! All atomic steps of the library are sequentially consistent. An applied update publishes all that its thread wrote
//! before it: a read or a scan that shows its value, or a later one of that component, acquires it. A lost update
//! publishes nothing, and neither does a conditional one that answers that the component has changed. A call that is
//! helped acquires what the values that it takes publish, through the update that helped. No contract of the library
//! speaks of a program's other memory; `tests/ordering.sh` of the repository shows both under the thread sanitizer.
//!
//! # Memory in use
//!
//! A memory has two arenas for each of its ports, and uses them again and again. [`Builder`] says how large they
//! are. [`Memory::new`], [`Memory::port`] and [`Memory::close`] take memory; of the calls of a port only those of slices do,
//! which say so.
//!
//! # What is proved, and what isn't
//!
//! This crate is a safe interface to a static library that is written in Rattle. The library's contracts
//! are proved over all orders of the threads' atomic steps: what each call of a port and a close answer, that
//! each call ends, and what each refusal leaves. Nothing in this crate is proved.
//! To what is trusted it adds:
//!
//! - its `unsafe` blocks: each passes pointers that are borrowed for the call, and handles that no
//!   other call uses, as the library's header asks;
//! - its declarations, which have to agree with the functions of the library;
//! - its lock of the ports that are free, its count of references, and its numbers of memories;
//! - the Rust compiler, the linker and the C library's `malloc`, `realloc` and `free`.
//!
//! # Linking
//!
//! `bindings/library.sh` of the repository proves and builds the static library, and this crate takes it from where that
//! puts it. It takes the kit's `c/liblibc_c.a` from where `rt` says that the kit is. `PARTIAL_DOOR_LIB` and
//! `PARTIAL_DOOR_HEAP` name them when they lie elsewhere. Linked so, each call of a port is a call of the library. Linked
//! with the library that `bindings/bitcode.sh` builds, and with the flags that it prints in `RUSTFLAGS`, an optimised
//! program has the code of a read of an opening inlined. The compiler and the linker then generate the library's code too.
//! `docs/using/c-and-rust.md` says what that needs. The library is built for x86-64 Linux.
//!
//! # Without the library
//!
//! The feature `plain` has the same interface over plain Rust with a lock. It is **not proved**, and it is for tests of
//! programs that depend on this crate, on other systems and under tools that can't run a C library, such as Miri. The
//! crate's own tests pass over it; they weren't run under such a tool. A call waits for the others there, no update is
//! lost, no scan is helped, and the calls order memory more than those of the library. [`ENGINE`] and the `Debug` of a
//! memory say which one answers.
#![deny(missing_docs)]
#![warn(clippy::undocumented_unsafe_blocks)]

mod answers;
mod builder;
mod counted;
mod error;
mod key;
mod memory;
pub mod opening;
mod parts;
mod port;
#[cfg(not(feature = "plain"))]
mod raw;
#[cfg(feature = "plain")]
#[path = "plain.rs"]
mod raw;
mod sizes;
mod typed;
mod word;

pub use answers::{Change, Scanned, Stamp, Updated, UpdatedIf, Value};
pub use builder::Builder;
pub use error::{CloseError, OpenError, PortError, Refused};
pub use key::{Key, Keys, Layout};
pub use memory::Memory;
pub use opening::TwoMemories;
pub use port::{Port, TRIES};
pub use word::Word;

/// What answers the calls of this build.
#[derive(Clone, Copy, Debug, PartialEq, Eq)]
#[non_exhaustive]
pub enum Engine {
    /// The static library that has the name of the proved one. `bindings/library.sh` builds it when all is proved.
    Proved,
    /// The static library of `bindings/library.sh --unproved`: the same sources, of which nothing was proved.
    Unproved,
    /// Plain Rust with a lock, of which nothing is proved: the feature `plain`.
    Plain,
}

/// What answers the calls of this build. A program that must not run without the proof ends at its start:
///
/// ```no_run
/// use partial_door::{Engine, ENGINE};
///
/// assert!(matches!(ENGINE, Engine::Proved), "this build has no proof");
/// ```
///
/// As the value of a `const`, the same assertion refuses to be compiled.
pub const ENGINE: Engine = if cfg!(feature = "plain") {
    Engine::Plain
} else if cfg!(partial_door_unproved) {
    Engine::Unproved
} else {
    Engine::Proved
};

/// The version of the library's functions that this crate declares: 1,000,000 for a major version, 1,000 for a minor one,
/// and 1 for a patch.
const VERSION: u32 = 1_000_000 * part(env!("CARGO_PKG_VERSION_MAJOR"))
    + 1_000 * part(env!("CARGO_PKG_VERSION_MINOR"))
    + part(env!("CARGO_PKG_VERSION_PATCH"));

/// The number of a part of a version.
const fn part(text: &str) -> u32 {
    let (digits, mut number, mut at) = (text.as_bytes(), 0, 0);
    while at < digits.len() {
        number = 10 * number + (digits[at] - b'0') as u32;
        at += 1;
    }
    number
}

/// Whether the library has the version that this crate declares.
fn is_of_this_version() -> bool {
    // SAFETY: the function takes nothing, and each library has it.
    unsafe { raw::partial_door_version() == VERSION }
}

/// The examples of the page for who finds the crate.
#[cfg(doctest)]
#[doc = include_str!("../README.md")]
struct Readme;

#[cfg(test)]
mod tests {
    use super::{part, VERSION};

    #[test]
    fn the_version_is_that_of_the_package() {
        assert_eq!((part("0"), part("7"), part("120")), (0, 7, 120));
        let [major, minor, patch] = [VERSION / 1_000_000, VERSION / 1000 % 1000, VERSION % 1000];
        assert_eq!(format!("{major}.{minor}.{patch}"), env!("CARGO_PKG_VERSION"));
    }
}
