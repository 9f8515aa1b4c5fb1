//! Open memories and closed ones.

use super::port::Port;
use super::{CloseError, OpenError, Sizes};
use crate::counted::Counted;
use crate::raw::{self, Handle};
use crate::{is_of_this_version, ENGINE};
use std::fmt;
use std::mem;
use std::sync::atomic::{AtomicU64, Ordering};
use std::sync::{Mutex, MutexGuard, PoisonError};

// The number of the next opening. Each opening has a number of its own.
static OPENINGS: AtomicU64 = AtomicU64::new(0);

/// The ports that were dropped while their memory was open. There is no list once the memory is gone.
pub(crate) struct Home {
    dropped: Mutex<Option<Vec<Port>>>,
}

impl Home {
    // Nobody panics while the list is locked, so a poisoned one is whole too.
    fn ports(&self) -> MutexGuard<'_, Option<Vec<Port>>> {
        self.dropped.lock().unwrap_or_else(PoisonError::into_inner)
    }

    /// Takes a dropped port in. The list has room for all ports of the memory.
    pub(crate) fn take_in(&self, port: Port) {
        if let Some(ports) = &mut *self.ports() {
            ports.push(port);
        }
    }
}

/// An open memory. It is needed to close it, and it gives dropped ports out again.
///
/// A memory is freed when its [`Memory`] and all its ports are dropped.
pub struct Memory {
    handle: Handle,
    opening: u64,
    components: u32,
    ports: u32,
    home: Counted<Home>,
}

/// The values of a closed memory.
pub struct Closed {
    handle: Handle,
    values: Vec<u64>,
}

/// Opens a memory whose components hold these values. Returns it with its ports, which are numbered from 0 in
/// their order.
///
/// ```
/// use partial_door::opening::{open, Sizes};
///
/// let (memory, ports) = open(&[10, 20], Sizes { slots: 10, list_words: 0, pool_words: 100 }, 3)?;
/// assert_eq!((memory.len(), ports.len()), (2, 3));
/// # Ok::<(), partial_door::opening::OpenError>(())
/// ```
///
/// # Errors
/// The first that holds: [`OpenError::Components`], [`OpenError::Slots`], [`OpenError::ListWords`] or
/// [`OpenError::PoolWords`] for a size out of its range; [`OpenError::Ports`] when there are not 1 to 64
/// ports; [`OpenError::OutOfMemory`] when an allocation was refused. Nothing is left of the attempt.
pub fn open(initial: &[u64], sizes: Sizes, ports: u32) -> Result<(Memory, Vec<Port>), OpenError> {
    let mut memory = Memory::new(u32::try_from(initial.len()).map_err(|_| OpenError::Components)?, ports)?;
    // SAFETY: the values, the sizes and the empty handle are borrowed for the call, and the number of
    // the opening is new.
    let code = unsafe {
        raw::partial_door_opening_open(
            memory.opening,
            initial.as_ptr(),
            initial.len(),
            &sizes.raw(),
            ports,
            &mut memory.handle,
        )
    };
    match code {
        0 => memory.with_ports(),
        code => Err(OpenError::of(code)),
    }
}

impl Memory {
    // A memory that is to be opened.
    fn new(components: u32, ports: u32) -> Result<Memory, OpenError> {
        if !is_of_this_version() {
            return Err(OpenError::OtherVersion);
        }
        let home = Counted::new(Home { dropped: Mutex::new(Some(Vec::new())) }).ok_or(OpenError::OutOfMemory)?;
        let opening = OPENINGS.fetch_add(1, Ordering::SeqCst);
        Ok(Memory { handle: Handle::empty(), opening, components, ports, home })
    }

    // Takes all ports out of a memory that has just opened.
    fn with_ports(mut self) -> Result<(Memory, Vec<Port>), OpenError> {
        let (mut ports, mut dropped) = (Vec::new(), Vec::new());
        ports.try_reserve_exact(self.ports as usize).map_err(|_| OpenError::OutOfMemory)?;
        dropped.try_reserve_exact(self.ports as usize).map_err(|_| OpenError::OutOfMemory)?;
        *self.home.ports() = Some(dropped);
        for _ in 0..self.ports {
            ports.push(self.take_port().map_err(OpenError::of)?);
        }
        ports.reverse();
        Ok((self, ports))
    }

    // Takes the last port that the library holds for the memory. Returns the number of the refusal otherwise.
    fn take_port(&mut self) -> Result<Port, u32> {
        let mut handle = Handle::empty();
        // SAFETY: both handles are borrowed for the call.
        match unsafe { raw::partial_door_opening_take_port(&mut self.handle, &mut handle) } {
            0 => Ok(Port::new(handle, self.opening, self.components, &self.home)),
            code => Err(code),
        }
    }

    /// A port of the memory that was dropped, as by a thread that panicked, if there is one. It goes on where it
    /// was left, with its number and its marks.
    ///
    /// ```
    /// use partial_door::opening::{open, Sizes};
    ///
    /// let (memory, ports) = open(&[1], Sizes { slots: 10, list_words: 0, pool_words: 100 }, 1)?;
    /// assert!(memory.port().is_none());
    /// let failed = std::thread::spawn(move || {
    ///     let mut ports = ports;
    ///     let _ = ports[0].update(0, 7).expect("there is room");
    ///     panic!("the port is dropped");
    /// });
    /// assert!(failed.join().is_err());
    /// let port = memory.port().expect("it has come back");
    /// assert_eq!(memory.close(vec![port])?.values(), [7]);
    /// # Ok::<(), Box<dyn std::error::Error + Send + Sync>>(())
    /// ```
    #[must_use]
    pub fn port(&self) -> Option<Port> {
        let mut port = self.home.ports().as_mut()?.pop()?;
        port.lives_at(&self.home);
        Some(port)
    }

    /// The number of components.
    #[allow(clippy::len_without_is_empty)]
    #[must_use]
    pub fn len(&self) -> usize {
        self.components as usize
    }

    /// Closes the memory with all its ports, in any order. Ports that were dropped need not be given. The values
    /// are those after one history, which begins with all that each port had observed.
    ///
    /// ```
    /// use partial_door::opening::{open, CloseError, Sizes};
    ///
    /// let sizes = Sizes { slots: 10, list_words: 0, pool_words: 100 };
    /// let (memory, mut ports) = open(&[1, 2], sizes, 2)?;
    /// assert!(ports[1].update(0, 7)?.is_applied());
    /// let other = ports.split_off(1);
    /// let Err(CloseError::NotAll(memory, ports)) = memory.close(ports) else { panic!() };
    /// drop(other);
    /// assert_eq!(memory.close(ports)?.values(), [7, 2]);
    /// # Ok::<(), Box<dyn std::error::Error + Send + Sync>>(())
    /// ```
    ///
    /// # Errors
    /// [`CloseError::NotAll`] when a port of the memory is in use elsewhere, or one of another memory was given: it
    /// has the memory and the ports, by their numbers. [`CloseError::OutOfMemory`] when an allocation was refused: the
    /// contents are lost.
    pub fn close(mut self, mut ports: Vec<Port>) -> Result<Closed, CloseError> {
        let (mut left, mut values) = (Vec::new(), Vec::new());
        let room = ports.len() + self.ports as usize;
        if ports.try_reserve_exact(self.ports as usize).is_err()
            || left.try_reserve_exact(room).is_err()
            || values.try_reserve_exact(self.len()).is_err()
        {
            return Err(CloseError::NotAll(self, ports));
        }
        if let Some(dropped) = &mut *self.home.ports() {
            ports.append(dropped);
        }
        let mut returned = 0;
        for mut port in ports {
            // SAFETY: both handles are borrowed for the call.
            match unsafe { raw::partial_door_opening_give_port(&mut self.handle, port.handle()) } {
                0 => returned += 1,
                _ => left.push(port),
            }
        }
        let code = if left.is_empty() {
            // SAFETY: the handle is borrowed for the call.
            unsafe { raw::partial_door_opening_close(&mut self.handle) }
        } else {
            22
        };
        match code {
            0 => {
                values.resize(self.len(), 0);
                Ok(Closed::new(mem::replace(&mut self.handle, Handle::empty()), values))
            }
            22 | 24 => {
                left.extend((0..returned).filter_map(|_| self.take_port().ok()));
                for port in &mut left {
                    port.lives_at_if(self.opening, &self.home);
                }
                left.sort_unstable_by_key(Port::number);
                Err(CloseError::NotAll(self, left))
            }
            _ => Err(CloseError::OutOfMemory),
        }
    }
}

impl Drop for Memory {
    /// Frees the ports that were dropped. The others are freed when they are.
    fn drop(&mut self) {
        drop(self.home.ports().take());
    }
}

impl Closed {
    /// Takes the values of a closed memory, of which there are as many as here.
    fn new(mut handle: Handle, mut values: Vec<u64>) -> Closed {
        // SAFETY: the handle and the values are borrowed for the call.
        let code = unsafe { raw::partial_door_opening_values(&mut handle, values.as_mut_ptr(), values.len()) };
        assert_eq!(code, 0, "a closed memory has as many values as it was opened with");
        Closed { handle, values }
    }

    /// Opens a memory of `components` components that goes on with these values. Returns it with its ports.
    /// Components that the closed memory didn't have begin at 0. Stamps start anew: one of the closed memory
    /// is refused in this one. The closed memory stays, and can be reopened again.
    ///
    /// ```
    /// use partial_door::opening::{open, Sizes};
    ///
    /// let sizes = Sizes { slots: 10, list_words: 0, pool_words: 100 };
    /// let (memory, mut ports) = open(&[1, 2], sizes, 1)?;
    /// assert!(ports[0].update(1, 7)?.is_applied());
    /// let mut closed = memory.close(ports)?;
    /// let (memory, ports) = closed.reopen(3, sizes, 2)?;
    /// assert_eq!(memory.close(ports)?.values(), [1, 7, 0]);
    /// # Ok::<(), Box<dyn std::error::Error + Send + Sync>>(())
    /// ```
    ///
    /// # Errors
    /// The first that holds: as those of [`open`], and before [`OpenError::OutOfMemory`] [`OpenError::TooSmall`]
    /// when the closed memory has more components. Nothing is left of the attempt.
    pub fn reopen(&mut self, components: u32, sizes: Sizes, ports: u32) -> Result<(Memory, Vec<Port>), OpenError> {
        let mut memory = Memory::new(components, ports)?;
        // SAFETY: both handles and the sizes are borrowed for the call, and the number of the opening is new.
        let code = unsafe {
            raw::partial_door_opening_reopen(
                memory.opening,
                &mut self.handle,
                components,
                &sizes.raw(),
                ports,
                &mut memory.handle,
            )
        };
        match code {
            0 => memory.with_ports(),
            code => Err(OpenError::of(code)),
        }
    }

    /// The value of each component, by its index.
    #[must_use]
    pub fn values(&self) -> &[u64] {
        &self.values
    }
}

impl fmt::Debug for Memory {
    fn fmt(&self, f: &mut fmt::Formatter<'_>) -> fmt::Result {
        f.debug_struct("Memory")
            .field("opening", &self.opening)
            .field("components", &self.components)
            .field("ports", &self.ports)
            .field("engine", &ENGINE)
            .finish()
    }
}

impl fmt::Debug for Closed {
    fn fmt(&self, f: &mut fmt::Formatter<'_>) -> fmt::Result {
        f.debug_struct("Closed").field("values", &self.values).finish()
    }
}
