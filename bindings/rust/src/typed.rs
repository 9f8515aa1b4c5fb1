//! The calls of a port by keys, over its untyped calls.

use crate::key::{Key, Keys};
use crate::port::Port;
use crate::{Change, Refused, Scanned, Stamp, Updated, UpdatedIf, Value, Word};

/// The calls by keys, which [`Layout`](crate::Layout) hands out. Each is the untyped call of its component, and is refused
/// as that is; a key of another memory is refused before ([`Refused::Key`]).
impl Port {
    /// Reads a component: its value at a moment of the call.
    ///
    /// ```
    /// use partial_door::Layout;
    ///
    /// let mut layout = Layout::new();
    /// let load = layout.add(0.5_f64);
    /// assert_eq!(layout.open()?.port()?.get(load)?, 0.5);
    /// # Ok::<(), Box<dyn std::error::Error + Send + Sync>>(())
    /// ```
    ///
    /// # Errors
    /// [`Refused::Key`] when the key is one of another memory.
    #[inline]
    pub fn get<T: Word>(&mut self, key: Key<T>) -> Result<T, Refused> {
        let component = key.of(self.memory())?;
        Ok(T::from_word(self.read(component)?.value))
    }

    /// Reads a component: its value and its stamp at a moment of the call.
    ///
    /// # Errors
    /// As those of [`Port::get`].
    #[inline]
    pub fn get_stamped<T: Word>(&mut self, key: Key<T>) -> Result<Value<T>, Refused> {
        let component = key.of(self.memory())?;
        self.read_as(component)
    }

    /// Sets a component, as [`Port::update`] does.
    ///
    /// # Errors
    /// [`Refused::Key`] when the key is one of another memory. Otherwise as those of [`Port::update`].
    #[inline]
    pub fn set<T: Word>(&mut self, key: Key<T>, value: T) -> Result<Updated, Refused> {
        let component = key.of(self.memory())?;
        self.update(component, value.to_word())
    }

    /// Sets a component if it has this stamp, as [`Port::update_if`] does.
    ///
    /// ```
    /// use partial_door::Layout;
    ///
    /// let mut layout = Layout::new();
    /// let letter = layout.add('a');
    /// let mut port = layout.open()?.port()?;
    /// let seen = port.get_stamped(letter)?;
    /// assert!(port.set_if(letter, seen.stamp, 'b')?.is_applied());
    /// assert!(!port.set_if(letter, seen.stamp, 'c')?.is_applied());
    /// assert_eq!(port.get(letter)?, 'b');
    /// # Ok::<(), Box<dyn std::error::Error + Send + Sync>>(())
    /// ```
    ///
    /// # Errors
    /// [`Refused::Key`] when the key is one of another memory. Otherwise as those of [`Port::update_if`].
    #[inline]
    pub fn set_if<T: Word>(&mut self, key: Key<T>, expected: Stamp, value: T) -> Result<UpdatedIf, Refused> {
        let component = key.of(self.memory())?;
        self.update_if(component, expected, value.to_word())
    }

    /// Sets a component to what the closure makes of its value, as [`Port::modify`] does. Returns the value before and the
    /// one after, each with its stamp.
    ///
    /// ```
    /// use partial_door::Layout;
    ///
    /// let mut layout = Layout::new();
    /// let count = layout.add(5_u32);
    /// let change = layout.open()?.port()?.change(count, |value| value + 1)?;
    /// assert_eq!((change.before.value, change.after.value), (5, 6));
    /// # Ok::<(), Box<dyn std::error::Error + Send + Sync>>(())
    /// ```
    ///
    /// # Errors
    /// [`Refused::Key`] when the key is one of another memory. Otherwise as those of [`Port::modify`].
    #[inline]
    pub fn change<T: Word>(&mut self, key: Key<T>, mut change: impl FnMut(T) -> T) -> Result<Change<T>, Refused> {
        match self.change_if(key, |value| Some(change(value)))? {
            Some(change) => Ok(change),
            None => unreachable!("the closure gives a value"),
        }
    }

    /// The same with a closure that may also leave the component as it is, by `None`. Then this returns `None`.
    ///
    /// ```
    /// use partial_door::Layout;
    ///
    /// let mut layout = Layout::new();
    /// let free = layout.add(1_u8);
    /// let mut port = layout.open()?.port()?;
    /// assert!(port.change_if(free, |free| free.checked_sub(1))?.is_some());
    /// assert!(port.change_if(free, |free| free.checked_sub(1))?.is_none());
    /// # Ok::<(), Box<dyn std::error::Error + Send + Sync>>(())
    /// ```
    ///
    /// # Errors
    /// As those of [`Port::change`].
    #[inline]
    pub fn change_if<T: Word>(
        &mut self,
        key: Key<T>,
        change: impl FnMut(T) -> Option<T>,
    ) -> Result<Option<Change<T>>, Refused> {
        let component = key.of(self.memory())?;
        self.modify_as(component, change)
    }

    /// Scans these components. Returns their values as they stood together at one moment of the call.
    ///
    /// ```
    /// use partial_door::Layout;
    /// use std::time::Duration;
    ///
    /// let mut layout = Layout::new();
    /// let (jobs, busy, grace) = (layout.add(3_i32), layout.add(true), layout.add(Duration::from_secs(1)));
    /// let mut port = layout.open()?.port()?;
    /// let (is_busy, count, time) = port.snapshot((busy, jobs, grace))?;
    /// assert_eq!((is_busy, count, time.as_millis()), (true, 3, 1000));
    /// assert_eq!(port.snapshot([jobs, jobs])?, [3, 3]);
    /// # Ok::<(), Box<dyn std::error::Error + Send + Sync>>(())
    /// ```
    ///
    /// # Errors
    /// [`Refused::Key`] when a key is one of another memory. Otherwise as those of [`Port::scan`].
    #[inline]
    pub fn snapshot<K: Keys>(&mut self, keys: K) -> Result<K::Values, Refused> {
        keys.snapshot(self)
    }

    /// Scans these components, and returns their stamps beside their values, as [`Port::scan_stamped`] does: `None` when
    /// the scan was helped.
    ///
    /// ```
    /// use partial_door::Layout;
    ///
    /// let mut layout = Layout::new();
    /// let (jobs, busy) = (layout.add(3_i32), layout.add(true));
    /// let mut port = layout.open()?.port()?;
    /// let ((count, _busy), Some(stamps)) = port.snapshot_stamped((jobs, busy))? else { panic!("no other port updates it") };
    /// assert!(port.set_if(jobs, stamps[0], count - 1)?.is_applied());
    /// # Ok::<(), Box<dyn std::error::Error + Send + Sync>>(())
    /// ```
    ///
    /// # Errors
    /// As those of [`Port::snapshot`].
    #[inline]
    pub fn snapshot_stamped<K: Keys>(&mut self, keys: K) -> Result<(K::Values, Option<K::Stamps>), Refused> {
        keys.stamped(self)
    }

    /// Scans the components of a slice of keys: `into` has their values as they stood together at one moment of the call.
    /// Up to 64 of them are copied on the stack, and more take memory.
    ///
    /// ```
    /// use partial_door::Layout;
    ///
    /// let mut layout = Layout::new();
    /// let keys: Vec<_> = [1.5_f32, 2.5, 3.5].map(|value| layout.add(value)).to_vec();
    /// let mut values = vec![0.0; 2];
    /// layout.open()?.port()?.snapshot_slice(&keys[1..], &mut values)?;
    /// assert_eq!(values, [2.5, 3.5]);
    /// # Ok::<(), Box<dyn std::error::Error + Send + Sync>>(())
    /// ```
    ///
    /// # Errors
    /// [`Refused::Key`] when a key is one of another memory, and [`Refused::OutOfMemory`] when an allocation was refused.
    /// Otherwise as those of [`Port::scan`]. `into` is as it was.
    pub fn snapshot_slice<T: Word>(&mut self, keys: &[Key<T>], into: &mut [T]) -> Result<Scanned, Refused> {
        self.scan_slice(keys, into, Port::scan)
    }

    /// Scans the components of a slice of keys as [`Port::snapshot_stamped`] does: `into` has their values, and the list
    /// their stamps. It is `None` when the scan was helped. The list takes memory.
    ///
    /// ```
    /// use partial_door::Layout;
    ///
    /// let mut layout = Layout::new();
    /// let keys: Vec<_> = ['a', 'b'].map(|letter| layout.add(letter)).to_vec();
    /// let mut port = layout.open()?.port()?;
    /// let mut letters = ['\0'; 2];
    /// let stamps = port.snapshot_stamped_slice(&keys, &mut letters)?.ok_or("no other port updates it")?;
    /// assert_eq!(letters, ['a', 'b']);
    /// assert!(port.set_if(keys[1], stamps[1], 'c')?.is_applied());
    /// # Ok::<(), Box<dyn std::error::Error + Send + Sync>>(())
    /// ```
    ///
    /// # Errors
    /// As those of [`Port::snapshot_slice`].
    pub fn snapshot_stamped_slice<T: Word>(
        &mut self,
        keys: &[Key<T>],
        into: &mut [T],
    ) -> Result<Option<Vec<Stamp>>, Refused> {
        self.scan_slice(keys, into, Port::scan_stamped_slice)
    }

    /// Scans the components of these keys by an untyped call.
    fn scan_slice<T: Word, A>(
        &mut self,
        keys: &[Key<T>],
        into: &mut [T],
        scan: impl FnOnce(&mut Port, &[u32], &mut [u64]) -> Result<A, Refused>,
    ) -> Result<A, Refused> {
        if keys.len() != into.len() {
            return Err(Refused::Length);
        }
        let memory = self.memory();
        with_room(keys.len(), |which: &mut [u32]| {
            for (component, key) in which.iter_mut().zip(keys) {
                *component = key.of(memory)?;
            }
            with_room(which.len(), |words: &mut [u64]| {
                let answer = scan(self, which, words)?;
                for (value, word) in into.iter_mut().zip(words) {
                    *value = T::from_word(*word);
                }
                Ok(answer)
            })
        })
    }
}

/// The most elements that are copied on the stack.
const ON_STACK: usize = 64;

/// Calls with a slice of so many elements, each 0 or the like: on the stack, or in memory of its own if there are many.
#[inline]
pub(crate) fn with_room<T: Copy + Default, A>(
    count: usize,
    call: impl FnOnce(&mut [T]) -> Result<A, Refused>,
) -> Result<A, Refused> {
    if count <= ON_STACK {
        return call(&mut [T::default(); ON_STACK][..count]);
    }
    let mut room = Vec::new();
    room.try_reserve_exact(count).map_err(|_| Refused::OutOfMemory)?;
    room.resize(count, T::default());
    call(&mut room)
}
