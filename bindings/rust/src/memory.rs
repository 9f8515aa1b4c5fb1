//! Long-lived memories, which never wear out.

use crate::counted::Counted;
use crate::port::Port;
use crate::raw::{self, Handle};
use crate::{is_of_this_version, Builder, CloseError, OpenError, PortError, ENGINE};
use std::fmt;
use std::sync::atomic::{AtomicU64, Ordering};
use std::sync::{Mutex, MutexGuard, PoisonError};

// How many numbers of memories were given out. Each memory has a number of its own.
static MEMORIES: AtomicU64 = AtomicU64::new(0);

/// A number that no other memory has: a multiple of 65,536, so that a key is the sum of this and of a component.
///
/// # Panics
/// When 2^48 numbers were given out, which takes days that are spent on nothing else.
pub(crate) fn next_number() -> u64 {
    let number = MEMORIES.fetch_add(1, Ordering::Relaxed);
    assert!(number >> 48 == 0, "the numbers of memories are used up");
    number << 16
}

/// The library's memory, which holds the ports that are free, and how many they are. It is empty once it is closed.
struct Home {
    memory: Handle,
    free: u32,
}

/// What a memory's clones and ports share.
pub(crate) struct Shared {
    home: Mutex<Home>,
    /// The number of the memory, which its stamps and keys carry.
    pub(crate) number: u64,
    /// The index of each component, in their order.
    pub(crate) all: Vec<u32>,
    bytes: usize,
}

impl Shared {
    // Nobody panics while it is locked, so a poisoned lock guards a whole handle too.
    fn home(&self) -> MutexGuard<'_, Home> {
        self.home.lock().unwrap_or_else(PoisonError::into_inner)
    }

    /// Takes a port in. The library has room for it, so an allocation isn't refused; otherwise the port is freed.
    pub(crate) fn take_in(&self, port: &mut Handle) {
        let mut home = self.home();
        // SAFETY: both handles are borrowed for the call, and the numbers of two memories differ.
        if unsafe { raw::partial_door_memory_give_port(&mut home.memory, port) } == 0 {
            home.free += 1;
        }
    }
}

/// A memory of components that threads share, and that never wears out. A clone is the same memory.
///
/// A thread calls it by a [`Port`]. The memory is freed when its clones and all its ports are dropped.
#[derive(Clone)]
pub struct Memory {
    shared: Counted<Shared>,
}

impl Memory {
    /// Makes a memory whose components hold these values, with 16 ports and arenas of the usual size.
    ///
    /// ```
    /// use partial_door::Memory;
    ///
    /// let memory = Memory::new(&[10, 20])?;
    /// assert_eq!(memory.port()?.read(1)?.value, 20);
    /// # Ok::<(), Box<dyn std::error::Error + Send + Sync>>(())
    /// ```
    ///
    /// # Errors
    /// As those of [`Builder::open`], but that no size is out of its range when there are 1 to 65,536 values. A [`Builder`]
    /// makes a memory with more ports, up to 255, and one with fewer, which takes less memory ([`Memory::bytes`]).
    pub fn new(initial: &[u64]) -> Result<Memory, OpenError> {
        Builder::default().open(initial)
    }

    /// What says how many ports a memory has and how large its arenas are, before it is made.
    ///
    /// ```
    /// use partial_door::Memory;
    ///
    /// let memory = Memory::builder().ports(2).open(&[10, 20])?;
    /// assert_eq!(memory.len(), 2);
    /// # Ok::<(), partial_door::OpenError>(())
    /// ```
    pub fn builder() -> Builder {
        Builder::default()
    }

    pub(crate) fn open(number: u64, initial: &[u64], ports: u32, arena: &raw::Arena) -> Result<Memory, OpenError> {
        if !is_of_this_version() {
            return Err(OpenError::OtherVersion);
        }
        let mut memory = Handle::empty();
        // SAFETY: the values, the sizes and the empty handle are borrowed for the call, and the number is new.
        match unsafe {
            raw::partial_door_memory_new(number, initial.as_ptr(), initial.len(), ports, arena, &mut memory)
        } {
            0 => {}
            code => return Err(OpenError::of(code)),
        }
        let mut all = Vec::new();
        all.try_reserve_exact(initial.len()).map_err(|_| OpenError::OutOfMemory)?;
        // The library opens no memory of more components than a `u32` can count.
        all.extend(0..initial.len() as u32);
        let bytes = raw::bytes(initial.len(), ports, arena);
        let shared = Shared { home: Mutex::new(Home { memory, free: ports }), number, all, bytes };
        Ok(Memory { shared: Counted::new(shared).ok_or(OpenError::OutOfMemory)? })
    }

    /// A port of the memory that is free. It comes back when it is dropped, also by a thread that panics.
    ///
    /// It takes a lock for a short time, and so does dropping a port; the calls of a port take none.
    ///
    /// ```
    /// use partial_door::Memory;
    ///
    /// let memory = Memory::builder().ports(1).open(&[1])?;
    /// let mut port = memory.port()?;
    /// let failed = std::thread::spawn(move || {
    ///     let _ = port.update(0, 7).expect("component 0 is there");
    ///     panic!("the port is dropped");
    /// });
    /// assert!(failed.join().is_err());
    /// assert_eq!(memory.port()?.read(0)?.value, 7);
    /// # Ok::<(), Box<dyn std::error::Error + Send + Sync>>(())
    /// ```
    ///
    /// # Errors
    /// [`PortError::NoneFree`] when all ports are in use, [`PortError::Closed`] when a clone of the memory was closed,
    /// and [`PortError::OutOfMemory`] when an allocation was refused.
    pub fn port(&self) -> Result<Port, PortError> {
        let mut port = Handle::empty();
        let mut home = self.shared.home();
        // SAFETY: both handles are borrowed for the call.
        match unsafe { raw::partial_door_memory_take_port(&mut home.memory, &mut port) } {
            0 => home.free -= 1,
            code => return Err(PortError::of(code)),
        }
        drop(home);
        Ok(Port::new(port, self.shared.clone()))
    }

    /// How many ports are free: so many more can be taken, if no other thread takes one. It takes the lock of
    /// [`Memory::port`]. A memory that is closed, or whose close was refused for want of memory, has none.
    ///
    /// ```
    /// use partial_door::Memory;
    ///
    /// let memory = Memory::builder().ports(3).open(&[1])?;
    /// let port = memory.port()?;
    /// assert_eq!(memory.free_ports(), 2);
    /// drop(port);
    /// assert_eq!(memory.free_ports(), 3);
    /// # Ok::<(), Box<dyn std::error::Error + Send + Sync>>(())
    /// ```
    #[must_use]
    pub fn free_ports(&self) -> u32 {
        self.shared.home().free
    }

    /// How many bytes the words take that all threads share: nearly all are those of the arenas. The buffers of each port
    /// and the 4 bytes that this crate has for each component aren't counted.
    ///
    /// ```
    /// use partial_door::Memory;
    ///
    /// let (few, many) = (Memory::builder().open(&[0; 3])?, Memory::builder().open(&[0; 300])?);
    /// assert!(few.bytes() < many.bytes());
    /// # Ok::<(), partial_door::OpenError>(())
    /// ```
    #[must_use]
    pub fn bytes(&self) -> usize {
        self.shared.bytes
    }

    /// The number of components.
    ///
    /// ```
    /// assert_eq!(partial_door::Memory::new(&[10, 20])?.len(), 2);
    /// # Ok::<(), partial_door::OpenError>(())
    /// ```
    #[allow(clippy::len_without_is_empty)]
    #[must_use]
    pub fn len(&self) -> usize {
        self.shared.all.len()
    }

    /// Closes the memory when all its ports are free, and returns the value of each component, by its index. They are
    /// those after one history, which begins with all that each port has observed.
    ///
    /// ```
    /// use partial_door::{CloseError, Memory};
    ///
    /// let memory = Memory::new(&[1, 2])?;
    /// let mut port = memory.port()?;
    /// assert!(port.update(0, 7)?.is_applied());
    /// let Err(CloseError::InUse(memory)) = memory.close() else { panic!("a port is in use") };
    /// drop(port);
    /// assert_eq!(memory.close()?, [7, 2]);
    /// # Ok::<(), Box<dyn std::error::Error + Send + Sync>>(())
    /// ```
    ///
    /// # Errors
    /// [`CloseError::InUse`] when a port is in use, [`CloseError::Closed`] when a clone of the memory was closed, and
    /// [`CloseError::OutOfMemory`] when an allocation was refused. The first and the last have the memory, whose contents
    /// are as they were.
    pub fn close(self) -> Result<Vec<u64>, CloseError> {
        let mut values = Vec::new();
        if values.try_reserve_exact(self.len()).is_err() {
            return Err(CloseError::OutOfMemory(self));
        }
        values.resize(self.len(), 0);
        let mut home = self.shared.home();
        // SAFETY: the handle and the values are borrowed for the call.
        let code = unsafe { raw::partial_door_memory_close(&mut home.memory, values.as_mut_ptr(), values.len()) };
        // A memory whose close is refused for want of memory (6) keeps its ports until it's closed.
        if matches!(code, 0 | 6) {
            home.free = 0;
        }
        drop(home);
        match code {
            0 => Ok(values),
            code => Err(CloseError::of(code, self)),
        }
    }
}

impl fmt::Debug for Memory {
    fn fmt(&self, f: &mut fmt::Formatter<'_>) -> fmt::Result {
        f.debug_struct("Memory")
            .field("number", &self.shared.number)
            .field("components", &self.len())
            .field("engine", &ENGINE)
            .finish()
    }
}
