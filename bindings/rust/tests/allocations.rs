//! Refuses in turn each allocation that the crate itself makes. None aborts the program, and nothing is lost or leaked.

use partial_door::opening::{self, Sizes};
use partial_door::{CloseError, Engine, Layout, Memory, OpenError, Refused, ENGINE};
use std::alloc::{GlobalAlloc, Layout as Block, System};
use std::cell::Cell;
use std::fmt::Debug;
use std::ptr::null_mut;

thread_local! {
    /// How many allocations of this thread are still allowed.
    static ALLOWED: Cell<usize> = const { Cell::new(usize::MAX) };
    /// How many blocks this thread holds.
    static HELD: Cell<isize> = const { Cell::new(0) };
}

struct Counting;

// SAFETY: all is left to the system's allocator, or refused.
unsafe impl GlobalAlloc for Counting {
    unsafe fn alloc(&self, block: Block) -> *mut u8 {
        let allowed = ALLOWED.get();
        if allowed == 0 {
            return null_mut();
        }
        ALLOWED.set(if allowed == usize::MAX { allowed } else { allowed - 1 });
        HELD.set(HELD.get() + 1);
        System.alloc(block)
    }

    unsafe fn dealloc(&self, pointer: *mut u8, block: Block) {
        HELD.set(HELD.get() - 1);
        System.dealloc(pointer, block);
    }
}

#[global_allocator]
static HEAP: Counting = Counting;

/// Makes a call with so many allocations allowed. Returns its answer.
fn with<A>(allowed: usize, call: impl FnOnce() -> A) -> A {
    ALLOWED.set(allowed);
    let answer = call();
    ALLOWED.set(usize::MAX);
    answer
}

/// How many blocks the crate itself takes for a call that takes so many over the library. With the feature `plain` it takes
/// those of the library too.
fn blocks(of_crate: usize, of_plain: usize) -> usize {
    match ENGINE {
        Engine::Plain => of_crate + of_plain,
        _ => of_crate,
    }
}

/// Makes a call with none of its allocations allowed, with one, and so on, until it's answered. Returns how many refusals
/// there were. Each has to be this one, and has to leave no block.
fn refusals<A, E: Debug + PartialEq>(refused: E, mut call: impl FnMut() -> Result<A, E>) -> usize {
    for allowed in 0.. {
        let held = HELD.get();
        match with(allowed, &mut call) {
            Ok(answer) => {
                drop(answer);
                assert_eq!(HELD.get(), held);
                return allowed;
            }
            Err(error) => {
                assert_eq!(error, refused);
                assert_eq!(HELD.get(), held);
            }
        }
    }
    unreachable!("a call takes some memory");
}

#[test]
fn a_memory_is_refused() {
    assert_eq!(refusals(OpenError::OutOfMemory, || Memory::builder().ports(1).open(&[1, 2])), blocks(2, 4));
}

#[test]
fn a_layout_is_refused_when_it_is_opened() {
    let open = || {
        let mut layout = Layout::new();
        let keys = [layout.add(7_u8), layout.add(9)];
        Ok((layout.open_with(Memory::builder().ports(1))?, keys))
    };
    assert_eq!(refusals(OpenError::OutOfMemory, open), blocks(3, 4));
}

#[test]
fn an_opening_is_refused() {
    let sizes = Sizes { slots: 10, list_words: 0, pool_words: 100 };
    assert_eq!(refusals(opening::OpenError::OutOfMemory, || opening::open(&[1, 2], sizes, 2)), blocks(3, 4));
}

#[test]
fn a_call_with_many_components_is_refused() {
    let memory = Memory::builder().ports(1).open(&[3; 100]).expect("a memory is made");
    let mut port = memory.port().expect("a port is free");
    let (which, mut into): (Vec<u32>, _) = ((0..100).collect(), vec![7; 100]);
    let stamps = port.scan_stamped_slice(&which, &mut into).expect("there is room").expect("nobody updates beside it");
    assert_eq!(refusals(Refused::OutOfMemory, || port.unchanged_slice(&which, &stamps)), 1);
    let scan = || port.scan_stamped_slice(&which, &mut into);
    assert_eq!(refusals(Refused::OutOfMemory, scan), 2);
    into.fill(7);
    assert_eq!(with(0, || port.scan_stamped_slice(&which, &mut into)), Err(Refused::OutOfMemory));
    assert_eq!(into, [7; 100]);
    assert_eq!(with(0, || port.scan_all(&mut into)).err(), None);
    assert_eq!(into, [3; 100]);
}

#[test]
fn a_call_with_many_keys_is_refused() {
    let mut layout = Layout::new();
    let keys: Vec<_> = (0..100_u32).map(|value| layout.add(value)).collect();
    let memory = layout.open_with(Memory::builder().ports(1)).expect("a memory is made");
    let mut port = memory.port().expect("a port is free");
    let mut into = vec![7; 100];
    // The components and the words are copied; with stamps the list of these, and the words of these, are wanted too.
    assert_eq!(refusals(Refused::OutOfMemory, || port.snapshot_slice(&keys, &mut into)), 2);
    assert_eq!(refusals(Refused::OutOfMemory, || port.snapshot_stamped_slice(&keys, &mut into)), 4);
    into.fill(7);
    assert_eq!(with(3, || port.snapshot_stamped_slice(&keys, &mut into)), Err(Refused::OutOfMemory));
    assert_eq!(into, [7; 100]);
}

#[test]
fn no_other_call_of_a_port_takes_memory() {
    let mut layout = Layout::new();
    let key = layout.add(1_u32);
    let memory = layout.open_with(Memory::builder().ports(1)).expect("a memory is made");
    with(0, || {
        let mut port = memory.port().expect("a port is free");
        let seen = port.read(0)?;
        assert!(port.update(0, 2)?.is_applied());
        assert!(!port.update_if(0, seen.stamp, 3)?.is_applied());
        assert!(!port.unchanged([(0, seen.stamp)])?);
        assert!(!port.unchanged_slice(&[0], &[seen.stamp])?);
        assert_eq!(port.scan_array([0])?, [2]);
        assert_eq!(port.snapshot((key,))?, (2,));
        port.snapshot_slice(&[key], &mut [0])?;
        assert_eq!(port.change(key, |value| value + 1)?.after.value, 3);
        Ok::<(), Refused>(())
    })
    .expect("it isn't refused");
}

#[test]
fn a_refused_close_loses_nothing() {
    let memory = Memory::builder().ports(1).open(&[3, 4]).expect("a memory is made");
    let Err(CloseError::OutOfMemory(memory)) = with(0, || memory.close()) else { panic!("it is refused") };
    let mut port = memory.port().expect("a port is free");
    assert!(port.update(0, 5).expect("it isn't refused").is_applied());
    drop(port);
    assert_eq!(memory.close().expect("there is room"), [5, 4]);
}

#[test]
fn a_refused_close_of_an_opening_loses_nothing() {
    let sizes = Sizes { slots: 10, list_words: 0, pool_words: 100 };
    let (mut memory, mut ports) = opening::open(&[1, 2], sizes, 3).expect("a memory opens");
    drop(with(0, || ports.pop()));
    // The list of the ports has grown when the second close begins.
    for allowed in 0..2 {
        let refused = with(allowed, || memory.close(ports));
        let Err(opening::CloseError::NotAll(back, mut given)) = refused else { panic!("{allowed} blocks are enough") };
        assert_eq!(given.len(), 2);
        assert!(given[1].update(1, 10 + allowed as u64).expect("there is room").is_applied());
        (memory, ports) = (back, given);
    }
    assert_eq!(with(2, || memory.close(ports)).expect("2 blocks are enough").values(), [1, 11]);
}
