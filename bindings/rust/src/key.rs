//! Typed components: keys, and the layouts that hand them out.

use crate::memory::{next_number, Memory};
use crate::port::Port;
use crate::{Builder, OpenError, Refused, Stamp, Word};
use std::fmt;
use std::hash::{Hash, Hasher};
use std::marker::PhantomData;

/// The components of a memory that is about to be made, with the type and the first value of each.
///
/// ```
/// use partial_door::Layout;
///
/// let mut layout = Layout::new();
/// let load = layout.add(0.5_f64);
/// let ready = layout.add(false);
/// let memory = layout.open()?;
///
/// let mut port = memory.port()?;
/// assert!(port.set(ready, true)?.is_applied());
/// assert_eq!(port.snapshot((ready, load))?, (true, 0.5));
/// # Ok::<(), Box<dyn std::error::Error + Send + Sync>>(())
/// ```
#[must_use]
#[derive(Debug)]
pub struct Layout {
    memory: u64,
    initial: Vec<u64>,
    /// Whether an allocation was refused.
    is_cut: bool,
}

impl Layout {
    /// A layout with no component.
    pub fn new() -> Layout {
        Layout { memory: next_number(), initial: Vec::new(), is_cut: false }
    }

    /// Adds a component with this value, and returns its key. [`Layout::open`] says when there are too many, or when an
    /// allocation was refused here; no call takes the keys of such a layout.
    pub fn add<T: Word>(&mut self, value: T) -> Key<T> {
        self.is_cut |= self.initial.try_reserve(1).is_err();
        let component = u16::try_from(self.initial.len()).unwrap_or(u16::MAX);
        if !self.is_cut {
            self.initial.push(value.to_word());
        }
        Key { word: self.memory | u64::from(component), of: PhantomData }
    }

    /// Makes the memory, with 16 ports and arenas of the usual size.
    ///
    /// # Errors
    /// As those of [`Builder::open`].
    pub fn open(self) -> Result<Memory, OpenError> {
        self.open_with(Memory::builder())
    }

    /// Makes the memory, with so many ports and such arenas.
    ///
    /// ```
    /// use partial_door::{Layout, Memory};
    ///
    /// let mut layout = Layout::new();
    /// let keys: Vec<_> = (0..2000_u16).map(|value| layout.add(value)).collect();
    /// let memory = layout.open_with(Memory::builder().ports(4))?;
    /// assert_eq!(memory.port()?.get(keys[7])?, 7);
    /// # Ok::<(), Box<dyn std::error::Error + Send + Sync>>(())
    /// ```
    ///
    /// # Errors
    /// As those of [`Builder::open`].
    pub fn open_with(self, builder: Builder) -> Result<Memory, OpenError> {
        if self.is_cut {
            return Err(OpenError::OutOfMemory);
        }
        builder.open_as(self.memory, &self.initial)
    }
}

impl Default for Layout {
    fn default() -> Layout {
        Layout::new()
    }
}

/// A component of one memory, and the type of its values. A call with a key of another memory is refused
/// ([`Refused::Key`]).
///
/// ```
/// use partial_door::{Layout, Refused};
///
/// let (mut one, mut other) = (Layout::new(), Layout::new());
/// let (first, second) = (one.add('a'), other.add('b'));
/// let (one, _other) = (one.open()?, other.open()?);
/// assert_eq!(one.port()?.get(first), Ok('a'));
/// assert_eq!(one.port()?.get(second), Err(Refused::Key));
/// # Ok::<(), Box<dyn std::error::Error + Send + Sync>>(())
/// ```
#[must_use]
pub struct Key<T> {
    /// The number of the memory, a multiple of 65,536, and the component, which is less.
    word: u64,
    of: PhantomData<fn(T) -> T>,
}

impl<T> Key<T> {
    /// The index of the component, for the untyped calls.
    ///
    /// ```
    /// use partial_door::Layout;
    ///
    /// let mut layout = Layout::new();
    /// let (_count, offset) = (layout.add(7_u64), layout.add(-1_i8));
    /// let mut port = layout.open()?.port()?;
    /// assert_eq!(offset.component(), 1);
    /// assert_eq!(port.read(offset.component())?.value, u64::MAX);
    /// # Ok::<(), Box<dyn std::error::Error + Send + Sync>>(())
    /// ```
    #[must_use]
    #[inline]
    pub fn component(self) -> u32 {
        u32::from(self.word as u16)
    }

    /// The number of the memory.
    fn memory(self) -> u64 {
        self.word >> 16 << 16
    }

    /// The component if the key is one of this memory, and otherwise a number of more than 16 bits.
    #[inline]
    fn seen_from(self, memory: u64) -> u64 {
        self.word ^ memory
    }

    /// The component, if the key is one of this memory.
    #[inline]
    pub(crate) fn of(self, memory: u64) -> Result<u32, Refused> {
        let component = self.seen_from(memory);
        if is_component(component) {
            Ok(component as u32)
        } else {
            Err(of_another_memory())
        }
    }
}

/// Whether a number that is a key seen from a memory, or several of them by `|`, has only components of that memory.
#[inline]
fn is_component(seen: u64) -> bool {
    seen >> 16 == 0
}

/// The refusal of a key of another memory. A call of a cold function is kept out of the way of what isn't refused.
#[cold]
#[inline(never)]
fn of_another_memory() -> Refused {
    Refused::Key
}

impl<T> Clone for Key<T> {
    fn clone(&self) -> Key<T> {
        *self
    }
}

impl<T> Copy for Key<T> {}

impl<T> PartialEq for Key<T> {
    fn eq(&self, other: &Key<T>) -> bool {
        self.word == other.word
    }
}

impl<T> Eq for Key<T> {}

impl<T> Hash for Key<T> {
    fn hash<H: Hasher>(&self, state: &mut H) {
        self.word.hash(state);
    }
}

impl<T> fmt::Debug for Key<T> {
    fn fmt(&self, f: &mut fmt::Formatter<'_>) -> fmt::Result {
        f.debug_struct("Key").field("memory", &self.memory()).field("component", &self.component()).finish()
    }
}

#[cfg(test)]
mod by_hand;

mod sealed {
    pub trait Sealed {}
}

/// Keys that [`Port::snapshot`] takes together: a tuple of up to 12 keys, or an array of keys of one type.
pub trait Keys: sealed::Sealed + Sized {
    /// The values of these components: a tuple of their types, or an array.
    type Values;
    /// The stamps of these components: an array.
    type Stamps;

    #[doc(hidden)]
    fn snapshot(self, port: &mut Port) -> Result<Self::Values, Refused>;

    #[doc(hidden)]
    fn stamped(self, port: &mut Port) -> Result<(Self::Values, Option<Self::Stamps>), Refused>;
}

impl<T, const N: usize> sealed::Sealed for [Key<T>; N] {}

impl<T: Word, const N: usize> Keys for [Key<T>; N] {
    type Values = [T; N];
    type Stamps = [Stamp; N];

    #[inline]
    fn snapshot(self, port: &mut Port) -> Result<[T; N], Refused> {
        let memory = port.memory();
        let which = components(self.map(|key| key.seen_from(memory)))?;
        Ok(port.scan_array(which)?.map(T::from_word))
    }

    #[inline]
    fn stamped(self, port: &mut Port) -> Result<([T; N], Option<[Stamp; N]>), Refused> {
        let memory = port.memory();
        let which = components(self.map(|key| key.seen_from(memory)))?;
        port.scan_stamped_as(which, |words| words.map(T::from_word))
    }
}

/// The components of these keys, each seen from this memory, if all are of it. One branch compares them all.
#[inline]
fn components<const N: usize>(seen: [u64; N]) -> Result<[u32; N], Refused> {
    if is_component(seen.iter().fold(0, |all, one| all | one)) {
        Ok(seen.map(|component| component as u32))
    } else {
        Err(of_another_memory())
    }
}

macro_rules! tuples {
    ($count:literal: $($of:ident $word:ident)+) => {
        impl<$($of),+> sealed::Sealed for ($(Key<$of>,)+) {}

        impl<$($of: Word),+> Keys for ($(Key<$of>,)+) {
            type Values = ($($of,)+);
            type Stamps = [Stamp; $count];

            #[inline]
            fn snapshot(self, port: &mut Port) -> Result<Self::Values, Refused> {
                let (memory, ($($word,)+)) = (port.memory(), self);
                let [$($word),+] = port.scan_array(components([$($word.seen_from(memory)),+])?)?;
                Ok(($($of::from_word($word),)+))
            }

            #[inline]
            fn stamped(self, port: &mut Port) -> Result<(Self::Values, Option<[Stamp; $count]>), Refused> {
                let (memory, ($($word,)+)) = (port.memory(), self);
                let which = components([$($word.seen_from(memory)),+])?;
                port.scan_stamped_as(which, |[$($word),+]| ($($of::from_word($word),)+))
            }
        }
    };
}

tuples!(1: A a);
tuples!(2: A a B b);
tuples!(3: A a B b C c);
tuples!(4: A a B b C c D d);
tuples!(5: A a B b C c D d E e);
tuples!(6: A a B b C c D d E e F f);
tuples!(7: A a B b C c D d E e F f G g);
tuples!(8: A a B b C c D d E e F f G g H h);
tuples!(9: A a B b C c D d E e F f G g H h I i);
tuples!(10: A a B b C c D d E e F f G g H h I i J j);
tuples!(11: A a B b C c D d E e F f G g H h I i J j K k);
tuples!(12: A a B b C c D d E e F f G g H h I i J j K k L l);
