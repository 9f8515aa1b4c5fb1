//! Single openings: ports in threads of their own, and what is refused.

use partial_door::opening::{open, CloseError, Closed, Memory, OpenError, Port, Refused, Sizes, Stamp};
use partial_door::opening::{TwoMemories, Updated};
use std::error::Error;

const SIZES: Sizes = Sizes { slots: 65_536, list_words: 65_536, pool_words: 4_194_304 };

#[test]
fn each_writer_of_its_own_component_is_applied() {
    let (memory, mut ports) = open(&[0; 3], SIZES, 3).expect("a memory opens");
    std::thread::scope(|scope| {
        for (component, port) in ports.iter_mut().enumerate() {
            scope.spawn(move || {
                for value in 1..=1000 {
                    let set = port.update(component as u32, value).expect("there is room");
                    assert!(matches!(set, Updated::Applied { .. }));
                }
            });
        }
    });
    let closed = memory.close(ports).expect("all ports are there");
    assert_eq!(closed.values(), [1000; 3]);
}

#[test]
fn a_port_is_refused_with_its_cause() {
    let small = Sizes { slots: 1, list_words: 0, pool_words: 5 };
    assert_eq!(open(&[1, 2], small, 1).err(), Some(OpenError::PoolWords));
    assert_eq!(open(&[1], SIZES, 65).err(), Some(OpenError::Ports));
    let (_memory, mut ports) = open(&[1, 2], SIZES, 1).expect("a memory opens");
    let mut into = [7];
    assert_eq!(ports[0].read(2), Err(Refused::Component));
    assert_eq!(ports[0].scan(&[0, 1], &mut into), Err(Refused::Length));
    assert_eq!(ports[0].scan(&[2], &mut into), Err(Refused::Component));
    assert_eq!(into, [7]);
}

#[test]
fn ports_of_two_memories_stay_apart() {
    let (memory, mut ports) = open(&[1], SIZES, 1).expect("a memory opens");
    let (_other, mut others) = open(&[2], SIZES, 1).expect("another opens");
    assert_eq!(ports[0].meet(&mut others[0]), Err(TwoMemories));
    ports.append(&mut others);
    let Err(CloseError::NotAll(memory, mut back)) = memory.close(ports) else {
        panic!("the ports of two memories were closed");
    };
    assert_eq!(back.len(), 2);
    let own = back.iter_mut().position(|port| port.read(0).expect("it is there").value == 1);
    let own = back.swap_remove(own.expect("the port came back"));
    assert_eq!(memory.close(vec![own]).expect("it is all").values(), [1]);
}

#[test]
fn a_closed_memory_opens_again() {
    let (memory, mut ports) = open(&[1, 2], SIZES, 2).expect("a memory opens");
    assert_eq!(ports.iter_mut().map(|port| port.number()).collect::<Vec<_>>(), [0, 1]);
    assert!(ports[1].update(0, 5).expect("there is room").is_applied());
    let mut closed = memory.close(ports).expect("all ports are there");
    assert_eq!(closed.reopen(1, SIZES, 1).err(), Some(OpenError::TooSmall));
    assert_eq!(closed.reopen(2, SIZES, 0).err(), Some(OpenError::Ports));
    assert_eq!(closed.reopen(0, SIZES, 1).err(), Some(OpenError::Components));
    let (memory, ports) = closed.reopen(3, SIZES, 64).expect("it opens again");
    assert_eq!(ports.len(), 64);
    assert_eq!(memory.close(ports).expect("all ports are there").values(), [5, 2, 0]);
    assert_eq!(closed.values(), [5, 2]);
}

#[test]
fn a_port_is_marked_for_its_slots() {
    let few = Sizes { slots: 1, ..SIZES };
    let (_memory, mut ports) = open(&[1], few, 1).expect("a memory opens");
    let mut into = [0];
    ports[0].scan(&[0], &mut into).expect("there is one slot");
    assert!(!ports[0].slots_spent());
    assert_eq!(ports[0].scan(&[0], &mut into), Err(Refused::SlotsSpent));
    assert!(ports[0].slots_spent() && !ports[0].pool_spent());
}

#[test]
fn errors_and_ports_may_go_to_other_threads() {
    fn is_error<E: Error + Send + Sync + 'static>() {}
    fn is_shared<T: Send + Sync + 'static>() {}
    is_error::<OpenError>();
    is_error::<Refused>();
    is_error::<CloseError>();
    is_error::<TwoMemories>();
    is_shared::<Port>();
    is_shared::<Memory>();
    is_shared::<Closed>();
    is_shared::<Stamp>();
}

#[test]
fn a_stamp_of_another_opening_is_refused() {
    let (memory, mut ports) = open(&[1], SIZES, 1).expect("a memory opens");
    let Updated::Applied { stamp } = ports[0].update(0, 2).expect("there is room") else {
        panic!("no other port updates it");
    };
    let (_other, mut others) = open(&[1], SIZES, 1).expect("another opens");
    assert!(others[0].update(0, 2).expect("there is room").is_applied());
    assert_eq!(others[0].update_if(0, stamp, 3), Err(Refused::Stamp));
    let mut closed = memory.close(ports).expect("all ports are there");
    let (_again, mut ports) = closed.reopen(1, SIZES, 1).expect("it opens again");
    assert!(ports[0].update(0, 2).expect("there is room").is_applied());
    assert_eq!(ports[0].update_if(0, stamp, 3), Err(Refused::Stamp));
    assert_eq!(ports[0].read(0).expect("it is there").value, 2);
}

#[test]
fn dropped_ports_come_back_and_need_not_be_given() {
    let (memory, mut ports) = open(&[0; 2], SIZES, 3).expect("a memory opens");
    let failed = std::thread::scope(|scope| {
        let mut port = ports.remove(1);
        scope
            .spawn(move || {
                assert!(port.update(1, 8).expect("there is room").is_applied());
                panic!("its port is dropped");
            })
            .join()
    });
    assert!(failed.is_err());
    let mut back = memory.port().expect("the port has come back");
    assert!(memory.port().is_none());
    assert_eq!((back.number(), back.read(1).expect("it is there").value), (1, 8));
    drop(back);
    assert_eq!(memory.close(ports).expect("all ports are there").values(), [0, 8]);
}

#[test]
fn ports_come_back_by_their_numbers() {
    let (memory, mut ports) = open(&[0], SIZES, 4).expect("a memory opens");
    let away = ports.remove(2);
    ports.swap(0, 2);
    let Err(CloseError::NotAll(memory, mut ports)) = memory.close(ports) else {
        panic!("it was closed without a port");
    };
    assert_eq!(ports.iter().map(Port::number).collect::<Vec<_>>(), [0, 1, 3]);
    drop(ports.pop());
    ports.push(away);
    assert_eq!(memory.close(ports).expect("all ports are there").values(), [0]);
}

#[test]
fn a_memory_may_be_dropped_before_its_ports() {
    let (memory, mut ports) = open(&[4], SIZES, 2).expect("a memory opens");
    drop(ports.pop());
    drop(memory);
    assert_eq!(ports[0].read(0).expect("it is there").value, 4);
}
