//! Ports, by which threads call a memory.

use super::memory::Home;
use super::{Change, Refused, Scanned, Stamp, TwoMemories, Updated, UpdatedIf, Value};
use crate::answers::loaded;
use crate::counted::Counted;
use crate::raw::{self, Handle};
use std::fmt;

/// A port of an open memory: a caller's token. One thread at a time uses it; it may move to another thread.
///
/// A port that is dropped while its [`Memory`](super::Memory) is open comes back to it
/// ([`Memory::port`](super::Memory::port)).
pub struct Port {
    handle: Handle,
    opening: u64,
    components: u32,
    number: u32,
    pool_spent: bool,
    slots_spent: bool,
    /// Where it goes when it is dropped, unless it is there.
    home: Option<Counted<Home>>,
}

impl Port {
    /// The port of this handle, which the library has filled.
    pub(crate) fn new(mut handle: Handle, opening: u64, components: u32, home: &Counted<Home>) -> Port {
        let mut state = raw::PortState::default();
        // SAFETY: the handle and the answer are borrowed for the call.
        let code = unsafe { raw::partial_door_opening_state(&mut handle, &mut state) };
        assert_eq!(code, 0, "a port's handle holds a port");
        Port {
            handle,
            opening,
            components,
            number: state.number,
            pool_spent: state.pool_spent == 1,
            slots_spent: state.slots_spent == 1,
            home: Some(home.clone()),
        }
    }

    pub(crate) fn handle(&mut self) -> &mut Handle {
        &mut self.handle
    }

    /// From now on the port comes back to this memory when it is dropped.
    pub(crate) fn lives_at(&mut self, home: &Counted<Home>) {
        self.home = Some(home.clone());
    }

    /// The same, if this is the memory that the port is of.
    pub(crate) fn lives_at_if(&mut self, opening: u64, home: &Counted<Home>) {
        if self.opening == opening {
            self.lives_at(home);
        }
    }

    /// Sets component `component` to `value`. An applied update is the last entry of the history that the
    /// port has observed afterwards. A lost one was overwritten, during the call, by the update that it names.
    ///
    /// ```
    /// use partial_door::opening::{open, Sizes, Updated};
    ///
    /// let mut port = open(&[5], Sizes::default(), 1)?.1.remove(0);
    /// let Updated::Applied { stamp } = port.update(0, 6)? else { panic!("no other port updates it") };
    /// assert_eq!(port.read(0)?.stamp, stamp);
    /// # Ok::<(), Box<dyn std::error::Error + Send + Sync>>(())
    /// ```
    ///
    /// # Errors
    /// [`Refused::Component`] when `component` isn't below the number of components.
    /// [`Refused::PoolSpent`] when the port is marked for the pool, or when this call's claim went past the
    /// end of the pool, which marks it. Nothing was applied.
    #[inline]
    pub fn update(&mut self, component: u32, value: u64) -> Result<Updated, Refused> {
        let mut answer = raw::UpdateAnswer::default();
        // SAFETY: the handle and the answer are borrowed for the call.
        match unsafe { raw::partial_door_opening_update(&mut self.handle, component, value, &mut answer) } {
            0 if answer.applied == 1 => Ok(Updated::Applied { stamp: self.stamp(answer.stamp) }),
            0 => Ok(Updated::Lost { by: self.stamp(answer.stamp) }),
            code => Err(self.refused(code)),
        }
    }

    /// Sets component `component` to `value` if it has the stamp `expected`. Otherwise the component had
    /// another stamp, which the answer names, at a moment of the call.
    ///
    /// ```
    /// use partial_door::opening::{open, Sizes, UpdatedIf};
    ///
    /// let mut port = open(&[5], Sizes::default(), 1)?.1.remove(0);
    /// let seen = port.read(0)?;
    /// let UpdatedIf::Applied { stamp } = port.update_if(0, seen.stamp, 6)? else { panic!() };
    /// assert_eq!(port.update_if(0, seen.stamp, 7)?, UpdatedIf::Changed { by: stamp });
    /// assert_eq!(port.read(0)?.value, 6);
    /// # Ok::<(), Box<dyn std::error::Error + Send + Sync>>(())
    /// ```
    ///
    /// # Errors
    /// [`Refused::Stamp`] when `expected` is a stamp of another opening, and no step was made. Otherwise as those
    /// of [`Port::update`].
    #[inline]
    pub fn update_if(&mut self, component: u32, expected: Stamp, value: u64) -> Result<UpdatedIf, Refused> {
        if expected.opening != self.opening {
            return Err(Refused::Stamp);
        }
        let mut answer = raw::UpdateAnswer::default();
        // SAFETY: the handle and the answer are borrowed for the call.
        let code = unsafe {
            raw::partial_door_opening_update_if(&mut self.handle, component, expected.word, value, &mut answer)
        };
        match code {
            0 if answer.applied == 1 => Ok(UpdatedIf::Applied { stamp: self.stamp(answer.stamp) }),
            0 => Ok(UpdatedIf::Changed { by: self.stamp(answer.stamp) }),
            code => Err(self.refused(code)),
        }
    }

    /// Sets component `component` to what the closure makes of its value, and tries again with the new value when
    /// another update came between. `None` from the closure ends it: nothing is applied. Returns the value before and the
    /// one after, each with its stamp, or `None`.
    ///
    /// Each try is wait-free; how many there are depends on the other ports.
    ///
    /// ```
    /// use partial_door::opening::{open, Sizes};
    ///
    /// let mut port = open(&[5], Sizes::default(), 1)?.1.remove(0);
    /// let change = port.modify(0, |value| value.checked_add(1))?.expect("it has room");
    /// assert_eq!((change.before.value, change.after.value), (5, 6));
    /// assert_eq!(port.read(0)?, change.after);
    /// assert_eq!(port.modify(0, |_| None)?, None);
    /// # Ok::<(), Box<dyn std::error::Error + Send + Sync>>(())
    /// ```
    ///
    /// # Errors
    /// As those of [`Port::update`].
    pub fn modify(
        &mut self,
        component: u32,
        mut change: impl FnMut(u64) -> Option<u64>,
    ) -> Result<Option<Change>, Refused> {
        loop {
            let before = self.read(component)?;
            let Some(value) = change(before.value) else {
                return Ok(None);
            };
            if let UpdatedIf::Applied { stamp } = self.update_if(component, before.stamp, value)? {
                return Ok(Some(Change { before, after: Value { value, stamp } }));
            }
        }
    }

    /// Reads component `component`: its value and its stamp at a moment of the call.
    ///
    /// ```
    /// use partial_door::opening::{open, Refused, Sizes};
    ///
    /// let mut port = open(&[5, 8], Sizes::default(), 1)?.1.remove(0);
    /// assert_eq!(port.read(1)?.value, 8);
    /// assert_eq!(port.read(2), Err(Refused::Component));
    /// # Ok::<(), Box<dyn std::error::Error + Send + Sync>>(())
    /// ```
    ///
    /// # Errors
    /// [`Refused::Component`] when `component` isn't below the number of components.
    #[inline]
    pub fn read(&mut self, component: u32) -> Result<Value, Refused> {
        let mut answer = raw::ReadAnswer::default();
        // SAFETY: the handle and the answer are borrowed for the call.
        match unsafe { raw::partial_door_opening_read(&mut self.handle, component, &mut answer) } {
            0 => Ok(Value { value: answer.value, stamp: self.stamp(answer.stamp) }),
            code => Err(self.refused(code)),
        }
    }

    /// Scans these components, in this order and with repeats: `into` has their values as they stood
    /// together at one moment of the call.
    ///
    /// ```
    /// use partial_door::opening::{open, Sizes};
    ///
    /// let mut port = open(&[5, 8, 9], Sizes::default(), 1)?.1.remove(0);
    /// let mut values = [0; 2];
    /// port.scan(&[2, 0], &mut values)?;
    /// assert_eq!(values, [9, 5]);
    /// # Ok::<(), Box<dyn std::error::Error + Send + Sync>>(())
    /// ```
    ///
    /// # Errors
    /// [`Refused::Length`] when the two lengths differ, or there are more positions than components.
    /// [`Refused::Component`] when an index isn't below the number of components. [`Refused::PoolSpent`] or
    /// [`Refused::SlotsSpent`] when the port is marked for the pool or the slots, or when a claim of this call
    /// went past their end, which marks it. `into` is as it was.
    #[inline]
    pub fn scan(&mut self, which: &[u32], into: &mut [u64]) -> Result<Scanned, Refused> {
        let mut answer = raw::ScanAnswer::default();
        // SAFETY: the handle, both slices and the answer are borrowed for the call.
        let code = unsafe {
            raw::partial_door_opening_scan(
                &mut self.handle,
                which.as_ptr(),
                which.len(),
                into.as_mut_ptr(),
                into.len(),
                &mut answer,
            )
        };
        match code {
            0 => Ok(Scanned {
                collects: answer.collects,
                borrowed: (answer.borrowed == 1).then(|| self.stamp(answer.stamp)),
            }),
            code => Err(self.refused(code)),
        }
    }

    /// The same for a number of components that is known when the program is compiled.
    ///
    /// ```
    /// use partial_door::opening::{open, Sizes};
    ///
    /// let mut port = open(&[5, 8, 9], Sizes::default(), 1)?.1.remove(0);
    /// assert_eq!(port.scan_array([1, 1, 0])?, [8, 8, 5]);
    /// # Ok::<(), Box<dyn std::error::Error + Send + Sync>>(())
    /// ```
    ///
    /// # Errors
    /// As those of [`Port::scan`].
    #[inline]
    pub fn scan_array<const N: usize>(&mut self, which: [u32; N]) -> Result<[u64; N], Refused> {
        let mut values = [0; N];
        self.scan(&which, &mut values)?;
        Ok(loaded(&values))
    }

    /// The number of the port: ports are numbered from 0 in the order in which [`open`](super::open) returns them.
    #[must_use]
    pub fn number(&self) -> u32 {
        self.number
    }

    /// The number of components of the memory.
    #[allow(clippy::len_without_is_empty)]
    #[must_use]
    pub fn len(&self) -> usize {
        self.components as usize
    }

    /// Whether the port is marked for the pool. If so, its updates and its scans of some position are refused.
    ///
    /// ```
    /// use partial_door::opening::{open, Refused, Sizes};
    ///
    /// let sizes = Sizes { slots: 10, list_words: 0, pool_words: 6 };
    /// let mut port = open(&[5], sizes, 1)?.1.remove(0);
    /// while port.update(0, 6).is_ok() {}
    /// assert_eq!(port.update(0, 7), Err(Refused::PoolSpent));
    /// assert!(port.pool_spent() && !port.slots_spent());
    /// # Ok::<(), Box<dyn std::error::Error + Send + Sync>>(())
    /// ```
    #[must_use]
    pub fn pool_spent(&self) -> bool {
        self.pool_spent
    }

    /// Whether the port is marked for the slots. If so, its scans of some position are refused.
    #[must_use]
    pub fn slots_spent(&self) -> bool {
        self.slots_spent
    }

    /// Merges what two ports have observed. When the two then read one component one after the other, the
    /// second value isn't an earlier one than the first.
    ///
    /// ```
    /// use partial_door::opening::{open, Sizes};
    ///
    /// let (_memory, mut ports) = open(&[5], Sizes::default(), 2)?;
    /// let (first, second) = ports.split_at_mut(1);
    /// assert!(first[0].update(0, 6)?.is_applied());
    /// first[0].meet(&mut second[0])?;
    /// assert_eq!(second[0].read(0)?.value, 6);
    /// # Ok::<(), Box<dyn std::error::Error + Send + Sync>>(())
    /// ```
    ///
    /// # Errors
    /// [`TwoMemories`] when the ports are of two memories. Both are as they were.
    pub fn meet(&mut self, other: &mut Port) -> Result<(), TwoMemories> {
        // SAFETY: both handles are borrowed for the call, and Rust keeps them apart.
        match unsafe { raw::partial_door_opening_meet(&mut self.handle, &mut other.handle) } {
            0 => Ok(()),
            _ => Err(TwoMemories),
        }
    }

    fn stamp(&self, word: u64) -> Stamp {
        Stamp { opening: self.opening, word }
    }

    // The cause of a refusal, which may have marked the port.
    #[cold]
    fn refused(&mut self, code: u32) -> Refused {
        let refused = Refused::of(code);
        self.pool_spent |= refused == Refused::PoolSpent;
        self.slots_spent |= refused == Refused::SlotsSpent;
        refused
    }
}

impl fmt::Debug for Port {
    fn fmt(&self, f: &mut fmt::Formatter<'_>) -> fmt::Result {
        f.debug_struct("Port")
            .field("opening", &self.opening)
            .field("number", &self.number)
            .field("pool_spent", &self.pool_spent)
            .field("slots_spent", &self.slots_spent)
            .finish()
    }
}

impl Drop for Port {
    fn drop(&mut self) {
        let Some(home) = self.home.take() else { return };
        if !self.handle.is_empty() {
            let handle = std::mem::replace(&mut self.handle, Handle::empty());
            home.take_in(Port { handle, home: None, ..*self });
        }
    }
}
