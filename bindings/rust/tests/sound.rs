//! What safe Rust may do with memories and ports: drop them in any order, forget them, move them between threads, and panic
//! in a closure that a call takes.

use partial_door::opening::{self, Closed, Sizes};
use partial_door::{CloseError, Layout, Memory, Port, PortError, Refused, UpdatedIf, Word, TRIES};
use std::mem::{forget, swap};
use std::panic::{catch_unwind, AssertUnwindSafe};
use std::thread;

/// The sizes of the openings.
const SIZES: Sizes = Sizes { slots: 10, list_words: 0, pool_words: 100 };

/// A memory whose epoch changes every few calls.
fn tiny(ports: u32) -> Memory {
    Memory::builder().ports(ports).list_words(4).pool_words(8).open(&[1, 2]).expect("a memory is made")
}

fn port_of(memory: &Memory) -> Port {
    memory.port().expect("a port is free")
}

/// Each order of these.
fn orders(of: usize) -> Vec<Vec<usize>> {
    if of == 0 {
        return vec![vec![]];
    }
    let longer = |order: Vec<usize>| {
        (0..of).map(move |at| {
            let mut order = order.clone();
            order.insert(at, of - 1);
            order
        })
    };
    orders(of - 1).into_iter().flat_map(longer).collect()
}

#[test]
fn a_memory_its_clone_and_its_ports_are_dropped_in_any_order() {
    for order in orders(4) {
        let memory = tiny(2);
        let (clone, mut ports) = (memory.clone(), [port_of(&memory), port_of(&memory)].map(Some));
        let mut memories = [Some(memory), Some(clone)];
        for (at, what) in order.into_iter().enumerate() {
            for port in ports.iter_mut().flatten() {
                assert!(port.update(0, at as u64).expect("it isn't refused").is_applied());
                assert_eq!(port.read(0).expect("it is there").value, at as u64);
            }
            if what < 2 {
                memories[what] = None;
            } else {
                ports[what - 2] = None;
            }
        }
    }
}

#[test]
fn an_opening_and_its_ports_are_dropped_in_any_order() {
    for order in orders(3) {
        let (memory, ports) = opening::open(&[1, 2], SIZES, 2).expect("a memory opens");
        let (mut memory, mut ports) = (Some(memory), ports.into_iter().map(Some).collect::<Vec<_>>());
        for (at, what) in order.into_iter().enumerate() {
            for port in ports.iter_mut().flatten() {
                assert!(port.update(0, at as u64).expect("there is room").is_applied());
            }
            match what {
                0 => memory = None,
                port => ports[port - 1] = None,
            }
        }
        assert!(memory.is_none());
    }
}

#[test]
fn a_dropped_port_outlives_the_opening_that_took_it_in() {
    let (memory, mut ports) = opening::open(&[1, 2], SIZES, 2).expect("a memory opens");
    drop(ports.pop());
    let mut back = memory.port().expect("it has come back");
    drop(memory);
    assert!(back.update(1, 7).expect("there is room").is_applied());
    drop(ports);
    assert_eq!(back.read(1).expect("it is there").value, 7);
}

#[test]
fn a_forgotten_port_stays_in_use() {
    let memory = tiny(2);
    forget(port_of(&memory));
    assert_eq!(memory.free_ports(), 1);
    let mut port = port_of(&memory);
    assert_eq!(memory.port().err(), Some(PortError::NoneFree));
    assert!(port.update(0, 5).expect("it isn't refused").is_applied());
    drop(port);
    let Err(CloseError::InUse(memory)) = memory.close() else { panic!("a port is in use") };
    assert_eq!(port_of(&memory).read(0).expect("it is there").value, 5);
}

#[test]
fn a_forgotten_memory_leaves_its_ports_whole() {
    let memory = tiny(1);
    let mut port = port_of(&memory);
    forget(memory);
    assert!(port.update(0, 5).expect("it isn't refused").is_applied());
    assert_eq!(port.read(0).expect("it is there").value, 5);
}

#[test]
fn a_forgotten_port_of_an_opening_stays_in_use_and_a_forgotten_opening_leaves_its_ports_whole() {
    let (memory, mut ports) = opening::open(&[1, 2], SIZES, 2).expect("a memory opens");
    forget(ports.pop());
    let Err(opening::CloseError::NotAll(memory, mut ports)) = memory.close(ports) else { panic!("a port is in use") };
    assert_eq!(ports.len(), 1);
    assert!(ports[0].update(0, 5).expect("there is room").is_applied());
    forget(memory);
    assert_eq!(ports[0].read(0).expect("it is there").value, 5);
}

#[test]
fn the_ports_that_are_free_are_counted() {
    let memory = tiny(3);
    let clone = memory.clone();
    let ports = [port_of(&memory), port_of(&clone)];
    assert_eq!((memory.free_ports(), clone.free_ports()), (1, 1));
    let Err(CloseError::InUse(memory)) = memory.close() else { panic!("two ports are in use") };
    assert_eq!(memory.free_ports(), 1);
    thread::spawn(move || drop(ports)).join().expect("it ends");
    assert_eq!(memory.free_ports(), 3);
    assert_eq!(memory.close().expect("all ports are free"), [1, 2]);
    assert_eq!(clone.free_ports(), 0);
}

#[test]
fn a_panic_in_a_closure_leaves_the_port_and_the_value_whole() {
    let mut layout = Layout::new();
    let key = layout.add(7_u32);
    let memory = layout.open().expect("a memory is made");
    let mut port = port_of(&memory);
    let mut panics = |call: &mut dyn FnMut(&mut Port) -> Result<(), Refused>| {
        assert!(catch_unwind(AssertUnwindSafe(|| call(&mut port))).is_err());
    };
    panics(&mut |port| port.modify(0, |_| panic!("a closure")).map(|_| ()));
    panics(&mut |port| port.change(key, |_| panic!("a closure")).map(|_| ()));
    panics(&mut |port| port.change_if(key, |_| panic!("a closure")).map(|_| ()));
    panics(&mut |port| port.retry(|_| panic!("a closure")));
    assert_eq!((port.get(key), port.read(0).map(|read| read.value)), (Ok(7), Ok(7)));
    assert!(port.set(key, 8).expect("it isn't refused").is_applied());
    drop(port);
    assert_eq!(memory.close().expect("all ports are free"), [8]);
}

#[test]
fn a_panic_in_a_closure_leaves_the_port_of_an_opening_whole() {
    let (memory, mut ports) = opening::open(&[1, 2], SIZES, 1).expect("a memory opens");
    let port = &mut ports[0];
    assert!(catch_unwind(AssertUnwindSafe(|| port.modify(1, |_| panic!("a closure")).map(|_| ()))).is_err());
    assert_eq!(port.read(1).expect("it is there").value, 2);
    assert!(port.update(1, 3).expect("there is room").is_applied());
    assert_eq!(memory.close(ports).expect("all ports are there").values(), [1, 3]);
}

#[test]
fn a_panic_in_a_word_leaves_the_port_and_the_value_whole() {
    #[derive(Debug)]
    struct Even(u64);
    impl Word for Even {
        fn to_word(self) -> u64 {
            assert_eq!(self.0 % 2, 0, "it is even");
            self.0
        }
        fn from_word(word: u64) -> Even {
            assert_eq!(word % 2, 0, "it is even");
            Even(word)
        }
    }
    let mut layout = Layout::new();
    let keys = [layout.add(Even(2)), layout.add(Even(4))];
    let memory = layout.open().expect("a memory is made");
    let mut port = port_of(&memory);
    assert!(catch_unwind(AssertUnwindSafe(|| port.set(keys[0], Even(3)))).is_err());
    assert_eq!(port.read(0).expect("it is there").value, 2);
    assert!(port.update(0, 3).expect("it isn't refused").is_applied());
    assert!(catch_unwind(AssertUnwindSafe(|| port.get(keys[0]).map(|_| ()))).is_err());
    assert!(catch_unwind(AssertUnwindSafe(|| port.snapshot(keys).map(|_| ()))).is_err());
    assert_eq!(port.get(keys[1]).expect("it is there").0, 4);
    drop(port);
    assert_eq!(memory.close().expect("all ports are free"), [3, 4]);
}

#[test]
fn a_refusal_for_the_moment_is_tried_again_so_often() {
    let memory = tiny(1);
    let mut port = port_of(&memory);
    let mut calls_until = |refused: Refused, last: u32| {
        let mut calls = 0;
        let answer = port.retry(|_| {
            calls += 1;
            if calls < last {
                Err(refused)
            } else {
                Ok(())
            }
        });
        (calls, answer)
    };
    assert_eq!(calls_until(Refused::Overtaken, 1), (1, Ok(())));
    assert_eq!(calls_until(Refused::Overtaken, 5), (5, Ok(())));
    assert_eq!(calls_until(Refused::Overtaken, TRIES), (TRIES, Ok(())));
    assert_eq!(calls_until(Refused::Overtaken, TRIES + 1), (TRIES, Err(Refused::Overtaken)));
    assert_eq!(calls_until(Refused::Overtaken, u32::MAX), (TRIES, Err(Refused::Overtaken)));
    for refused in [Refused::Component, Refused::Length, Refused::Stamp, Refused::Key, Refused::EpochsSpent] {
        assert_eq!(calls_until(refused, 2), (1, Err(refused)));
    }
}

#[test]
fn a_closure_may_change_the_port_that_it_is_given_for_another() {
    let (one, other) = (tiny(1), tiny(1));
    let (mut first, mut second) = (port_of(&one), port_of(&other));
    let stamp = first.read(0).expect("it is there").stamp;
    first
        .retry(|port| {
            swap(port, &mut second);
            Ok(())
        })
        .expect("it isn't refused");
    assert_eq!(first.update_if(0, stamp, 9), Err(Refused::Stamp));
    assert!(matches!(second.update_if(0, stamp, 9), Ok(UpdatedIf::Applied { .. })));
    drop((first, second));
    assert_eq!(
        (one.close().expect("its port is free"), other.close().expect("its port is free")),
        (vec![9, 2], vec![1, 2])
    );
}

#[test]
fn a_port_moves_from_thread_to_thread() {
    let memory = tiny(2);
    let mut port = port_of(&memory);
    for value in 0..50 {
        port = thread::spawn(move || {
            assert!(port.modify(1, |_| Some(value)).expect("it isn't refused").is_some());
            port
        })
        .join()
        .expect("it ends");
    }
    assert_eq!(port.read(1).expect("it is there").value, 49);
}

#[test]
fn all_components_are_scanned_and_compared() {
    let initial: Vec<u64> = (0..100).map(|k| k * k).collect();
    let memory = Memory::builder().ports(2).open(&initial).expect("a memory is made");
    let (mut port, mut other) = (port_of(&memory), port_of(&memory));
    let mut values = vec![0; 100];
    port.scan_all(&mut values).expect("it isn't refused");
    assert_eq!(values, initial);
    assert_eq!(port.scan_all(&mut values[1..]), Err(Refused::Length));
    let all: Vec<u32> = (0..100).collect();
    let stamps =
        port.scan_stamped_slice(&all, &mut values).expect("it isn't refused").expect("nobody updates beside it");
    for count in [0, 1, 64, 65, 100] {
        assert_eq!(port.unchanged_slice(&all[..count], &stamps[..count]), Ok(true));
    }
    assert_eq!(port.unchanged_slice(&all[..2], &stamps[..3]), Err(Refused::Length));
    assert!(other.update(99, 1).expect("it isn't refused").is_applied());
    assert_eq!(port.unchanged_slice(&all[..99], &stamps[..99]), Ok(true));
    assert_eq!(port.unchanged_slice(&all, &stamps), Ok(false));
    assert_eq!(port.unchanged_slice(&[100], &stamps[..1]), Ok(false));
    let strange = port_of(&tiny(1)).read(0).expect("it is there").stamp;
    assert_eq!(port.unchanged_slice(&[0, 1], &[stamps[0], strange]), Err(Refused::Stamp));
}

#[test]
fn handles_may_go_to_other_threads() {
    fn is_shared<T: Send + Sync + 'static>() {}
    is_shared::<opening::Memory>();
    is_shared::<opening::Port>();
    is_shared::<Closed>();
    is_shared::<Memory>();
    is_shared::<Port>();
}
