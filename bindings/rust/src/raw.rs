//! The proved functions of the static library, as `bindings/c/partial.h` declares them. That header
//! says what each number means.

pub(crate) use crate::parts::{Arena, PortState, ReadAnswer, ScanAnswer, Sizes, UpdateAnswer};

/// A handle: one pointer that only the library reads and writes. Zero bits are an empty handle.
#[repr(C)]
pub struct Handle {
    held: *mut core::ffi::c_void,
}

impl Handle {
    pub const fn empty() -> Handle {
        Handle { held: core::ptr::null_mut() }
    }

    pub fn is_empty(&self) -> bool {
        self.held.is_null()
    }
}

// SAFETY: it is proved of the type of what a handle holds that it may move to another thread. The calls take a
// handle by `&mut`, so one thread at a time uses it, and Rust orders its moves between threads.
unsafe impl Send for Handle {}
// SAFETY: nothing is read through a shared handle but whether it is empty.
unsafe impl Sync for Handle {}

impl Drop for Handle {
    fn drop(&mut self) {
        // SAFETY: the handle is borrowed for the call.
        unsafe { partial_door_free(self) };
    }
}

pub(crate) use crate::sizes::bytes;

unsafe extern "C" {
    pub fn partial_door_memory_new(
        number: u64,
        initial: *const u64,
        components: usize,
        ports: u32,
        arena: *const Arena,
        memory: *mut Handle,
    ) -> u32;
    pub fn partial_door_memory_take_port(memory: *mut Handle, port: *mut Handle) -> u32;
    pub fn partial_door_memory_give_port(memory: *mut Handle, port: *mut Handle) -> u32;
    pub fn partial_door_memory_close(memory: *mut Handle, into: *mut u64, room: usize) -> u32;
    pub fn partial_door_port_update(port: *mut Handle, component: u32, value: u64, answer: *mut UpdateAnswer) -> u32;
    pub fn partial_door_port_update_if(
        port: *mut Handle,
        component: u32,
        expected: u64,
        value: u64,
        answer: *mut UpdateAnswer,
    ) -> u32;
    pub fn partial_door_port_read(port: *mut Handle, component: u32, answer: *mut ReadAnswer) -> u32;
    pub fn partial_door_port_scan(
        port: *mut Handle,
        which: *const u32,
        positions: usize,
        into: *mut u64,
        room: usize,
        answer: *mut ScanAnswer,
    ) -> u32;
    pub fn partial_door_port_scan_stamped(
        port: *mut Handle,
        which: *const u32,
        positions: usize,
        into: *mut u64,
        room: usize,
        stamps: *mut u64,
        count: usize,
        answer: *mut ScanAnswer,
    ) -> u32;
    pub fn partial_door_port_unchanged(
        port: *mut Handle,
        which: *const u32,
        positions: usize,
        stamps: *const u64,
        count: usize,
        answer: *mut u32,
    ) -> u32;
    pub fn partial_door_port_meet(first: *mut Handle, second: *mut Handle) -> u32;
    pub fn partial_door_port_number(port: *mut Handle, answer: *mut u32) -> u32;
    pub fn partial_door_opening_open(
        opening: u64,
        initial: *const u64,
        components: usize,
        sizes: *const Sizes,
        ports: u32,
        memory: *mut Handle,
    ) -> u32;
    pub fn partial_door_opening_reopen(
        opening: u64,
        closed: *mut Handle,
        components: u32,
        sizes: *const Sizes,
        ports: u32,
        memory: *mut Handle,
    ) -> u32;
    pub fn partial_door_opening_take_port(memory: *mut Handle, port: *mut Handle) -> u32;
    pub fn partial_door_opening_give_port(memory: *mut Handle, port: *mut Handle) -> u32;
    pub fn partial_door_opening_update(port: *mut Handle, component: u32, value: u64, answer: *mut UpdateAnswer)
        -> u32;
    pub fn partial_door_opening_update_if(
        port: *mut Handle,
        component: u32,
        expected: u64,
        value: u64,
        answer: *mut UpdateAnswer,
    ) -> u32;
    pub fn partial_door_opening_read(port: *mut Handle, component: u32, answer: *mut ReadAnswer) -> u32;
    pub fn partial_door_opening_scan(
        port: *mut Handle,
        which: *const u32,
        positions: usize,
        into: *mut u64,
        room: usize,
        answer: *mut ScanAnswer,
    ) -> u32;
    pub fn partial_door_opening_state(port: *mut Handle, answer: *mut PortState) -> u32;
    pub fn partial_door_opening_meet(first: *mut Handle, second: *mut Handle) -> u32;
    pub fn partial_door_opening_close(memory: *mut Handle) -> u32;
    pub fn partial_door_opening_values(closed: *mut Handle, into: *mut u64, room: usize) -> u32;
    pub fn partial_door_free(handle: *mut Handle) -> u32;
    pub fn partial_door_version() -> u32;
}
