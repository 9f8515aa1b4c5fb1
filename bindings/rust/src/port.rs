//! Ports, by which threads call a memory.

use crate::answers::loaded;
use crate::counted::Counted;
use crate::memory::Shared;
use crate::raw::{self, Handle};
use crate::typed::with_room;
use crate::{Change, Refused, Scanned, Stamp, TwoMemories, Updated, UpdatedIf, Value, Word};
use std::fmt;
use std::thread;

/// How often [`Port::retry`], [`Port::modify`] and [`Port::change`] make a call in all that is refused for the moment.
pub const TRIES: u32 = 64;

/// A port of a memory: a caller's token. One thread at a time uses it; it may move to another thread.
///
/// ```compile_fail,E0499
/// let memory = partial_door::Memory::new(&[5])?;
/// let mut port = memory.port()?;
/// std::thread::scope(|scope| {
///     scope.spawn(|| port.update(0, 6));
///     scope.spawn(|| port.update(0, 7)); // another thread uses the port
/// });
/// # Ok::<(), Box<dyn std::error::Error + Send + Sync>>(())
/// ```
///
/// A port that is dropped is free again: [`Memory::port`](crate::Memory::port) gives it out. One that is forgotten
/// (`std::mem::forget`) stays in use, and its memory can't be closed.
pub struct Port {
    handle: Handle,
    number: u32,
    memory: u64,
    shared: Counted<Shared>,
}

impl Port {
    /// The port of this handle, which the library has filled.
    pub(crate) fn new(mut handle: Handle, shared: Counted<Shared>) -> Port {
        let mut number = 0;
        // SAFETY: the handle and the answer are borrowed for the call.
        let code = unsafe { raw::partial_door_port_number(&mut handle, &mut number) };
        assert_eq!(code, 0, "a port's handle holds a port");
        Port { handle, number, memory: shared.number, shared }
    }

    /// The number of the memory.
    #[inline]
    pub(crate) fn memory(&self) -> u64 {
        self.memory
    }

    /// Sets component `component` to `value`. An applied update is the last entry of the history that the
    /// port has observed afterwards. A lost one was overwritten, during the call, by the update that it names.
    ///
    /// ```
    /// use partial_door::{Memory, Updated};
    ///
    /// let mut port = Memory::new(&[5])?.port()?;
    /// let Updated::Applied { stamp } = port.update(0, 6)? else { panic!("no other port updates it") };
    /// assert_eq!(port.read(0)?.stamp, stamp);
    /// # Ok::<(), Box<dyn std::error::Error + Send + Sync>>(())
    /// ```
    ///
    /// # Errors
    /// [`Refused::Component`] when `component` isn't below the number of components. [`Refused::Overtaken`] when
    /// the epoch was changed 16 times during the call; [`Port::retry`] makes it again then. [`Refused::EpochsSpent`] when
    /// the epoch has to be changed and is the last one. Nothing was applied.
    #[inline]
    pub fn update(&mut self, component: u32, value: u64) -> Result<Updated, Refused> {
        let mut answer = raw::UpdateAnswer::default();
        // SAFETY: the handle and the answer are borrowed for the call.
        match unsafe { raw::partial_door_port_update(&mut self.handle, component, value, &mut answer) } {
            0 if answer.applied == 1 => Ok(Updated::Applied { stamp: self.stamp(answer.stamp) }),
            0 => Ok(Updated::Lost { by: self.stamp(answer.stamp) }),
            code => Err(Refused::of(code)),
        }
    }

    /// Sets component `component` to `value` if it has the stamp `expected`. Otherwise the component had another
    /// stamp, which the answer names, at a moment of the call. No stamp of a memory ever comes back.
    ///
    /// The answer has no value beside the other stamp: the library has loaded none, and to load it would cost each such
    /// call. [`Port::modify`] is for updates that depend on the present value.
    ///
    /// ```
    /// use partial_door::{Memory, UpdatedIf};
    ///
    /// let mut port = Memory::new(&[5])?.port()?;
    /// let seen = port.read(0)?;
    /// let UpdatedIf::Applied { stamp } = port.update_if(0, seen.stamp, 6)? else { panic!() };
    /// assert_eq!(port.update_if(0, seen.stamp, 7)?, UpdatedIf::Changed { by: stamp });
    /// assert_eq!(port.read(0)?.value, 6);
    /// # Ok::<(), Box<dyn std::error::Error + Send + Sync>>(())
    /// ```
    ///
    /// # Errors
    /// [`Refused::Stamp`] when `expected` is a stamp of another memory, and no step was made. Otherwise as those of
    /// [`Port::update`].
    #[inline]
    pub fn update_if(&mut self, component: u32, expected: Stamp, value: u64) -> Result<UpdatedIf, Refused> {
        if expected.memory != self.memory {
            return Err(Refused::Stamp);
        }
        let mut answer = raw::UpdateAnswer::default();
        // SAFETY: the handle and the answer are borrowed for the call.
        let code =
            unsafe { raw::partial_door_port_update_if(&mut self.handle, component, expected.word, value, &mut answer) };
        match code {
            0 if answer.applied == 1 => Ok(UpdatedIf::Applied { stamp: self.stamp(answer.stamp) }),
            0 => Ok(UpdatedIf::Changed { by: self.stamp(answer.stamp) }),
            code => Err(Refused::of(code)),
        }
    }

    /// Makes a call of this port, and makes it again as long as it's refused for the moment
    /// ([`is_transient`](Refused::is_transient)), as only updates are: up to 64 times in all ([`TRIES`]). Between two calls
    /// the thread lets others go on. A last refusal is returned.
    ///
    /// With the usual sizes of a memory such refusals are very rare, and 64 of them in a row rarer still. Each call is
    /// wait-free, so this is too.
    ///
    /// ```
    /// use partial_door::Memory;
    ///
    /// let mut port = Memory::new(&[5])?.port()?;
    /// assert!(port.retry(|port| port.update(0, 6))?.is_applied());
    /// assert_eq!(port.read(0)?.value, 6);
    /// # Ok::<(), Box<dyn std::error::Error + Send + Sync>>(())
    /// ```
    ///
    /// # Errors
    /// Those of the call.
    #[inline]
    pub fn retry<T>(&mut self, mut call: impl FnMut(&mut Port) -> Result<T, Refused>) -> Result<T, Refused> {
        for _ in 1..TRIES {
            match call(self) {
                Err(refused) if refused.is_transient() => thread::yield_now(),
                answer => return answer,
            }
        }
        call(self)
    }

    /// Sets component `component` to what the closure makes of its value, and tries again with the new value when
    /// another update came between. `None` from the closure ends it: nothing is applied. Returns the value before and the
    /// one after, each with its stamp, or `None`.
    ///
    /// Each try is wait-free; how many there are depends on the other ports. A try that is refused for the moment is made
    /// again as [`Port::retry`] does.
    ///
    /// ```
    /// use partial_door::Memory;
    ///
    /// let mut port = Memory::new(&[5])?.port()?;
    /// let change = port.modify(0, |value| value.checked_add(1))?.expect("it has room");
    /// assert_eq!((change.before.value, change.after.value), (5, 6));
    /// assert_eq!(port.read(0)?, change.after);
    /// assert_eq!(port.modify(0, |_| None)?, None);
    /// # Ok::<(), Box<dyn std::error::Error + Send + Sync>>(())
    /// ```
    ///
    /// # Errors
    /// As those of [`Port::update`].
    #[inline]
    pub fn modify(
        &mut self,
        component: u32,
        change: impl FnMut(u64) -> Option<u64>,
    ) -> Result<Option<Change>, Refused> {
        self.modify_as(component, change)
    }

    /// The same of a component of this type.
    pub(crate) fn modify_as<T: Word>(
        &mut self,
        component: u32,
        mut change: impl FnMut(T) -> Option<T>,
    ) -> Result<Option<Change<T>>, Refused> {
        let mut tries = 0;
        loop {
            let before = self.read(component)?;
            let Some(value) = change(T::from_word(before.value)).map(T::to_word) else {
                return Ok(None);
            };
            match self.update_if(component, before.stamp, value) {
                Ok(UpdatedIf::Applied { stamp }) => {
                    let after = Value { value, stamp };
                    return Ok(Some(Change { before: before.typed(), after: after.typed() }));
                }
                Ok(UpdatedIf::Changed { .. }) => {}
                Err(refused) => {
                    tries += 1;
                    if tries == TRIES || !refused.is_transient() {
                        return Err(refused);
                    }
                    thread::yield_now();
                }
            }
        }
    }

    /// Reads component `component`: its value and its stamp at a moment of the call.
    ///
    /// ```
    /// use partial_door::{Memory, Refused};
    ///
    /// let mut port = Memory::new(&[5, 8])?.port()?;
    /// assert_eq!(port.read(1)?.value, 8);
    /// assert_eq!(port.read(2), Err(Refused::Component));
    /// # Ok::<(), Box<dyn std::error::Error + Send + Sync>>(())
    /// ```
    ///
    /// # Errors
    /// [`Refused::Component`] when `component` isn't below the number of components.
    #[inline]
    pub fn read(&mut self, component: u32) -> Result<Value, Refused> {
        self.read_as(component)
    }

    /// The same of a component of this type.
    #[inline]
    pub(crate) fn read_as<T: Word>(&mut self, component: u32) -> Result<Value<T>, Refused> {
        let mut answer = raw::ReadAnswer::default();
        // SAFETY: the handle and the answer are borrowed for the call.
        match unsafe { raw::partial_door_port_read(&mut self.handle, component, &mut answer) } {
            0 => Ok(Value { value: T::from_word(answer.value), stamp: self.stamp(answer.stamp) }),
            code => Err(Refused::of(code)),
        }
    }

    /// Scans these components, in this order and with repeats: `into` has their values as they stood
    /// together at one moment of the call.
    ///
    /// ```
    /// use partial_door::Memory;
    ///
    /// let mut port = Memory::new(&[5, 8, 9])?.port()?;
    /// let mut values = [0; 2];
    /// port.scan(&[2, 0], &mut values)?;
    /// assert_eq!(values, [9, 5]);
    /// # Ok::<(), Box<dyn std::error::Error + Send + Sync>>(())
    /// ```
    ///
    /// # Errors
    /// [`Refused::Length`] when the two lengths differ, or there are more positions than components.
    /// [`Refused::Component`] when an index isn't below the number of components. [`Refused::EpochsSpent`] when the epoch
    /// has to be changed and is the last one. `into` is as it was.
    #[inline]
    pub fn scan(&mut self, which: &[u32], into: &mut [u64]) -> Result<Scanned, Refused> {
        let answer = scan_by(&mut self.handle, which, into)?;
        Ok(self.scanned(&answer))
    }

    /// Scans all components, by their indices: `into` has their values as they stood together at one moment of the call.
    ///
    /// ```
    /// use partial_door::Memory;
    ///
    /// let memory = Memory::new(&[5, 8, 9])?;
    /// let mut values = vec![0; memory.len()];
    /// memory.port()?.scan_all(&mut values)?;
    /// assert_eq!(values, [5, 8, 9]);
    /// # Ok::<(), Box<dyn std::error::Error + Send + Sync>>(())
    /// ```
    ///
    /// # Errors
    /// [`Refused::Length`] when `into` isn't as long as there are components. Otherwise as those of [`Port::scan`].
    #[inline]
    pub fn scan_all(&mut self, into: &mut [u64]) -> Result<Scanned, Refused> {
        let answer = scan_by(&mut self.handle, &self.shared.all, into)?;
        Ok(self.scanned(&answer))
    }

    /// Scans these components, in this order and with repeats. Returns their values as they stood together at one
    /// moment of the call.
    ///
    /// ```
    /// use partial_door::Memory;
    ///
    /// let mut port = Memory::new(&[5, 8, 9])?.port()?;
    /// assert_eq!(port.scan_array([2, 0, 2])?, [9, 5, 9]);
    /// # Ok::<(), Box<dyn std::error::Error + Send + Sync>>(())
    /// ```
    ///
    /// # Errors
    /// As those of [`Port::scan`].
    #[inline]
    pub fn scan_array<const N: usize>(&mut self, which: [u32; N]) -> Result<[u64; N], Refused> {
        let mut into = [0; N];
        self.scan(&which, &mut into)?;
        Ok(loaded(&into))
    }

    /// Scans these components, in this order and with repeats, and returns their stamps beside their values. Both are as
    /// they stood together at one moment of the call.
    ///
    /// The stamps are `None` when the scan was helped: it took the view of an update, which has values and no stamps. The
    /// call orders memory as a scan does.
    ///
    /// ```
    /// use partial_door::{Memory, UpdatedIf};
    ///
    /// let mut port = Memory::new(&[5, 8])?.port()?;
    /// let ([first, second], Some(stamps)) = port.scan_stamped([0, 1])? else { panic!("no other port updates it") };
    /// assert_eq!((first, second), (5, 8));
    /// assert!(matches!(port.update_if(0, stamps[0], second)?, UpdatedIf::Applied { .. }));
    /// # Ok::<(), Box<dyn std::error::Error + Send + Sync>>(())
    /// ```
    ///
    /// # Errors
    /// As those of [`Port::scan`].
    #[inline]
    #[allow(clippy::type_complexity)]
    pub fn scan_stamped<const N: usize>(&mut self, which: [u32; N]) -> Result<([u64; N], Option<[Stamp; N]>), Refused> {
        self.scan_stamped_as(which, |values| values)
    }

    /// The same, with what the closure makes of the values.
    #[inline]
    pub(crate) fn scan_stamped_as<const N: usize, V>(
        &mut self,
        which: [u32; N],
        of: impl FnOnce([u64; N]) -> V,
    ) -> Result<(V, Option<[Stamp; N]>), Refused> {
        let (mut into, mut words) = ([0; N], [0; N]);
        let has_stamps = self.scan_words(&which, &mut into, &mut words)?;
        Ok((of(loaded(&into)), has_stamps.then(|| loaded(&words).map(|word| self.stamp(word)))))
    }

    /// Scans the components of a slice as [`Port::scan_stamped`] does: `into` has their values, and the list their stamps.
    /// It is `None` when the scan was helped. The list takes memory.
    ///
    /// ```
    /// use partial_door::Memory;
    ///
    /// let mut port = Memory::new(&[5, 8, 9])?.port()?;
    /// let (which, mut values) = (vec![2, 0], vec![0; 2]);
    /// let stamps = port.scan_stamped_slice(&which, &mut values)?.ok_or("no other port updates it")?;
    /// assert_eq!(values, [9, 5]);
    /// assert_eq!(stamps, [port.read(2)?.stamp, port.read(0)?.stamp]);
    /// # Ok::<(), Box<dyn std::error::Error + Send + Sync>>(())
    /// ```
    ///
    /// # Errors
    /// [`Refused::OutOfMemory`] when an allocation was refused. Otherwise as those of [`Port::scan`]. `into` is as it was.
    pub fn scan_stamped_slice(&mut self, which: &[u32], into: &mut [u64]) -> Result<Option<Vec<Stamp>>, Refused> {
        let mut stamps = Vec::new();
        stamps.try_reserve_exact(which.len()).map_err(|_| Refused::OutOfMemory)?;
        with_room(which.len(), |words: &mut [u64]| {
            let has_stamps = self.scan_words(which, into, words)?;
            stamps.extend(words.iter().map(|word| self.stamp(*word)));
            Ok(has_stamps.then_some(stamps))
        })
    }

    /// Scans these components, and says whether `words` has their stamps: unless the scan was helped.
    #[inline]
    fn scan_words(&mut self, which: &[u32], into: &mut [u64], words: &mut [u64]) -> Result<bool, Refused> {
        let mut answer = raw::ScanAnswer::default();
        // SAFETY: the handle, the slices and the answer are borrowed for the call.
        let code = unsafe {
            raw::partial_door_port_scan_stamped(
                &mut self.handle,
                which.as_ptr(),
                which.len(),
                into.as_mut_ptr(),
                into.len(),
                words.as_mut_ptr(),
                words.len(),
                &mut answer,
            )
        };
        match code {
            0 => Ok(answer.borrowed == 0),
            code => Err(Refused::of(code)),
        }
    }

    /// Says whether each of these components still has its stamp. If so, and this port has observed the stamps before, all
    /// of them had these values together at one moment of the call. `false` says that a component isn't there, or had
    /// another stamp at a moment of the call.
    ///
    /// A port has observed the stamps that it has read or scanned ([`Port::scan_stamped`] too), those of its own applied
    /// updates, and what a port that it has met had observed. Any other stamp was the component's own at some moment of the
    /// call, perhaps not together with the others.
    ///
    /// ```
    /// use partial_door::Memory;
    ///
    /// let mut port = Memory::new(&[5, 8])?.port()?;
    /// let seen = [(0, port.read(0)?.stamp), (1, port.read(1)?.stamp)];
    /// assert!(port.unchanged(seen)?);
    /// assert!(port.update(1, 8)?.is_applied());
    /// assert!(!port.unchanged(seen)?);
    /// # Ok::<(), Box<dyn std::error::Error + Send + Sync>>(())
    /// ```
    ///
    /// # Errors
    /// [`Refused::Stamp`] when a stamp is one of another memory, and no step was made.
    pub fn unchanged<const N: usize>(&mut self, seen: [(u32, Stamp); N]) -> Result<bool, Refused> {
        if seen.iter().any(|(_, stamp)| stamp.memory != self.memory) {
            return Err(Refused::Stamp);
        }
        self.have_stamps(&seen.map(|(component, _)| component), &seen.map(|(_, stamp)| stamp.word))
    }

    /// The same of two slices, the components and the stamp of each. Up to 64 stamps are copied on the stack, and more take
    /// memory.
    ///
    /// ```
    /// use partial_door::Memory;
    ///
    /// let mut port = Memory::new(&[5, 8, 9])?.port()?;
    /// let (which, mut values) = (vec![2, 0], vec![0; 2]);
    /// let stamps = port.scan_stamped_slice(&which, &mut values)?.ok_or("no other port updates it")?;
    /// assert!(port.unchanged_slice(&which, &stamps)?);
    /// assert!(port.update(1, 8)?.is_applied() && port.unchanged_slice(&which, &stamps)?);
    /// assert!(port.update(0, 5)?.is_applied() && !port.unchanged_slice(&which, &stamps)?);
    /// # Ok::<(), Box<dyn std::error::Error + Send + Sync>>(())
    /// ```
    ///
    /// # Errors
    /// [`Refused::Length`] when the two lengths differ, [`Refused::Stamp`] when a stamp is one of another memory, and
    /// [`Refused::OutOfMemory`] when an allocation was refused. No step was made.
    pub fn unchanged_slice(&mut self, which: &[u32], stamps: &[Stamp]) -> Result<bool, Refused> {
        if which.len() != stamps.len() {
            return Err(Refused::Length);
        }
        with_room(stamps.len(), |words: &mut [u64]| {
            for (word, stamp) in words.iter_mut().zip(stamps) {
                if stamp.memory != self.memory {
                    return Err(Refused::Stamp);
                }
                *word = stamp.word;
            }
            self.have_stamps(which, words)
        })
    }

    /// Whether each of these components has the stamp of this word.
    #[inline]
    fn have_stamps(&mut self, which: &[u32], words: &[u64]) -> Result<bool, Refused> {
        let mut answer = 0;
        // SAFETY: the handle, both slices and the answer are borrowed for the call.
        let code = unsafe {
            raw::partial_door_port_unchanged(
                &mut self.handle,
                which.as_ptr(),
                which.len(),
                words.as_ptr(),
                words.len(),
                &mut answer,
            )
        };
        match code {
            0 => Ok(answer == 1),
            code => Err(Refused::of(code)),
        }
    }

    /// Has two ports meet: each has observed afterwards all that either had observed before. When the one has read a
    /// component before, and the other reads it afterwards, the second value isn't an earlier one than the first.
    ///
    /// ```
    /// use partial_door::Memory;
    ///
    /// let memory = Memory::new(&[5])?;
    /// let (mut first, mut second) = (memory.port()?, memory.port()?);
    /// assert!(first.update(0, 6)?.is_applied());
    /// first.meet(&mut second)?;
    /// assert_eq!(second.read(0)?.value, 6);
    /// # Ok::<(), Box<dyn std::error::Error + Send + Sync>>(())
    /// ```
    ///
    /// # Errors
    /// [`TwoMemories`] when the ports are of two memories. Both are as they were.
    pub fn meet(&mut self, other: &mut Port) -> Result<(), TwoMemories> {
        // SAFETY: both handles are borrowed for the call, and Rust keeps them apart.
        match unsafe { raw::partial_door_port_meet(&mut self.handle, &mut other.handle) } {
            0 => Ok(()),
            _ => Err(TwoMemories),
        }
    }

    /// The number of the port. No two ports of a memory have the same, and each is below the number of its ports.
    ///
    /// ```
    /// use partial_door::Memory;
    ///
    /// let memory = Memory::builder().ports(2).open(&[5])?;
    /// let (first, second) = (memory.port()?, memory.port()?);
    /// assert_ne!(first.number(), second.number());
    /// assert!(first.number() < 2 && second.number() < 2);
    /// # Ok::<(), Box<dyn std::error::Error + Send + Sync>>(())
    /// ```
    #[must_use]
    pub fn number(&self) -> u32 {
        self.number
    }

    fn stamp(&self, word: u64) -> Stamp {
        Stamp { memory: self.memory, word }
    }

    fn scanned(&self, answer: &raw::ScanAnswer) -> Scanned {
        Scanned { collects: answer.collects, borrowed: (answer.borrowed == 1).then(|| self.stamp(answer.stamp)) }
    }
}

/// Scans by the port of this handle.
#[inline]
fn scan_by(port: &mut Handle, which: &[u32], into: &mut [u64]) -> Result<raw::ScanAnswer, Refused> {
    let mut answer = raw::ScanAnswer::default();
    // SAFETY: the handle, both slices and the answer are borrowed for the call.
    let code = unsafe {
        raw::partial_door_port_scan(port, which.as_ptr(), which.len(), into.as_mut_ptr(), into.len(), &mut answer)
    };
    match code {
        0 => Ok(answer),
        code => Err(Refused::of(code)),
    }
}

impl fmt::Debug for Port {
    fn fmt(&self, f: &mut fmt::Formatter<'_>) -> fmt::Result {
        f.debug_struct("Port").field("memory", &self.memory).field("number", &self.number).finish()
    }
}

impl Drop for Port {
    fn drop(&mut self) {
        self.shared.take_in(&mut self.handle);
    }
}
