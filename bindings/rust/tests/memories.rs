//! Long-lived memories: their ports in threads of their own, and what is refused.

use partial_door::{
    Builder, CloseError, Engine, Memory, OpenError, Port, PortError, Refused, Stamp, TwoMemories, Updated, UpdatedIf,
    ENGINE,
};
use std::collections::{HashMap, HashSet};
use std::error::Error;

/// A memory whose epoch changes every few calls.
fn tiny(initial: &[u64], ports: u32) -> Memory {
    Memory::builder().ports(ports).list_words(4).pool_words(8).open(initial).expect("a memory is made")
}

/// Sets a component, and tries again when the epoch was changed too often meanwhile.
fn set(port: &mut Port, component: u32, value: u64) -> Updated {
    port.retry(|port| port.update(component, value)).expect("it isn't refused so often")
}

#[test]
fn each_writer_of_its_own_component_is_applied_over_many_epochs() {
    let memory = tiny(&[0; 3], 3);
    std::thread::scope(|scope| {
        for component in 0..3 {
            let mut port = memory.port().expect("a port is free");
            scope.spawn(move || {
                for value in 1..=3000 {
                    assert!(matches!(set(&mut port, component, value), Updated::Applied { .. }));
                }
            });
        }
    });
    let mut port = memory.port().expect("a port is free again");
    assert!(port.read(0).expect("it is there").stamp.epoch() > 100);
    drop(port);
    assert_eq!(memory.close().expect("all ports are free"), [3000; 3]);
}

#[test]
fn each_of_64_threads_has_a_port_and_no_more() {
    let memory = Memory::builder().ports(64).open(&[0]).expect("a memory is made");
    let ports: Vec<Port> = (0..64).map(|_| memory.port().expect("a port is free")).collect();
    assert_eq!(memory.port().err(), Some(PortError::NoneFree));
    let numbers: HashSet<u32> = ports.iter().map(Port::number).collect();
    assert_eq!(numbers, (0..64).collect());
    std::thread::scope(|scope| {
        for mut port in ports {
            scope.spawn(move || port.update(0, u64::from(port.number())).map(|_| ()));
        }
    });
    assert!(memory.close().expect("all ports are free")[0] < 64);
}

/// What a thread has seen: the component and the stamp of each of its applied updates with the value that it set, the
/// component and the stamp of each update that overwrote one of its own, and the values of its scans.
#[derive(Default)]
struct Seen {
    applied: Vec<((u32, Stamp), u64)>,
    overwriting: Vec<(u32, Stamp)>,
    scans: Vec<([u64; 3], Option<[Stamp; 3]>)>,
}

/// Adds one to components 0 and 1 in turn, sets component 2 to numbers that no other thread takes, and scans all three.
fn update_and_scan(port: &mut Port, turns: u64) -> Seen {
    let mut seen = Seen::default();
    for turn in 0..turns {
        let component = (turn % 2) as u32;
        let change = port.modify(component, |value| Some(value + 1)).expect("it isn't refused so often");
        let after = change.expect("the closure gives a value").after;
        seen.applied.push(((component, after.stamp), after.value));
        let (values, stamps) = port.scan_stamped([0, 1, 2]).expect("it isn't refused");
        assert!(after.value <= values[component as usize]);
        seen.scans.push((values, stamps));
        let own = 1 + turn + turns * u64::from(port.number());
        match set(port, 2, own) {
            Updated::Applied { stamp } => seen.applied.push(((2, stamp), own)),
            Updated::Lost { by } => seen.overwriting.push((2, by)),
        }
    }
    seen
}

#[test]
fn what_200_threads_see_of_one_memory_is_consistent() {
    const TURNS: u64 = 60;
    let memory = Memory::builder().ports(200).list_words(64).pool_words(1024).open(&[0; 3]).expect("a memory is made");
    let ports: Vec<Port> = (0..200).map(|_| memory.port().expect("a port is free")).collect();
    assert_eq!(memory.port().err(), Some(PortError::NoneFree));
    let seen: Vec<Seen> = std::thread::scope(|scope| {
        let started: Vec<_> =
            ports.into_iter().map(|mut port| scope.spawn(move || update_and_scan(&mut port, TURNS))).collect();
        started.into_iter().map(|thread| thread.join().expect("no thread panics")).collect()
    });
    // No two applied updates have one stamp, and one that overwrote another was applied.
    let applied: HashMap<(u32, Stamp), u64> = seen.iter().flat_map(|seen| seen.applied.iter().copied()).collect();
    assert_eq!(applied.len(), seen.iter().map(|seen| seen.applied.len()).sum());
    assert!(seen.iter().flat_map(|seen| &seen.overwriting).all(|by| applied.contains_key(by)));
    // No increment is lost: each number is set once.
    for component in 0..2 {
        let mut set: Vec<u64> =
            applied.iter().filter(|((of, _), _)| *of == component).map(|(_, &value)| value).collect();
        set.sort_unstable();
        assert_eq!(set, (1..=200 * TURNS / 2).collect::<Vec<u64>>());
    }
    // A value that a scan shows is the one that the update with its stamp set, or the one that the memory opened with.
    for (values, stamps) in seen.iter().flat_map(|seen| &seen.scans) {
        for (component, stamp) in (0..).zip(stamps.iter().flatten()) {
            let value = values[component as usize];
            assert_eq!(value, applied.get(&(component, *stamp)).copied().unwrap_or(0));
        }
    }
    // No scan of a thread goes back, and of any two scans neither shows an earlier moment of one counter and a later one of
    // the other.
    let counters = |(values, _): &([u64; 3], Option<[Stamp; 3]>)| [values[0], values[1]];
    for seen in &seen {
        assert!(seen.scans.windows(2).all(|two| are_in_order(counters(&two[0]), counters(&two[1]))));
    }
    let mut all: Vec<[u64; 2]> = seen.iter().flat_map(|seen| seen.scans.iter().map(counters)).collect();
    all.sort_unstable();
    assert!(all.windows(2).all(|two| are_in_order(two[0], two[1])));
    let mut port = memory.port().expect("a port is free again");
    let last = port.read(2).expect("it is there");
    assert!(last.stamp.epoch() > 10 && applied.get(&(2, last.stamp)) == Some(&last.value));
    drop(port);
    assert_eq!(memory.close().expect("all ports are free"), [200 * TURNS / 2, 200 * TURNS / 2, last.value]);
}

/// Whether neither counter falls from the first moment to the second.
fn are_in_order(first: [u64; 2], second: [u64; 2]) -> bool {
    first[0] <= second[0] && first[1] <= second[1]
}

#[test]
fn a_memory_is_refused_with_the_first_cause() {
    let opened = |ports, count| Memory::builder().ports(ports).list_words(65_537).open(&vec![0; count]).err();
    assert_eq!(opened(0, 0), Some(OpenError::Ports));
    assert_eq!(opened(256, 0), Some(OpenError::Ports));
    assert_eq!(opened(1, 0), Some(OpenError::Components));
    assert_eq!(opened(1, 65_537), Some(OpenError::Components));
    assert_eq!(opened(1, 1), Some(OpenError::ListWords));
    assert!(Memory::new(&[0; 10_000]).is_ok());
    assert!(Memory::builder().ports(1).open(&[0; 65_536]).is_ok());
    assert_eq!(Memory::builder().ports(1).open(&[0; 65_537]).err(), Some(OpenError::Components));
    assert!(Memory::builder().ports(4).open(&[0; 65_536]).is_ok());
    assert!(Memory::builder().ports(64).open(&[0; 1_000]).is_ok());
    let most = Memory::builder().ports(64).pool_words(4_000_000);
    assert_eq!(most.open(&[0; 62_721]).err(), Some(OpenError::PoolWords));
}

/// How many updates each of the first epochs has, when so many ports of such a memory update component 0 in turns.
fn updates_of_epochs<const N: usize>(builder: Builder, ports: usize) -> [u32; N] {
    let memory = builder.open(&[0]).expect("a memory is made");
    let mut ports: Vec<Port> = (0..ports).map(|_| memory.port().expect("a port is free")).collect();
    let mut counts = [0; N];
    for turn in 0.. {
        let port = turn % ports.len();
        let Updated::Applied { stamp } = set(&mut ports[port], 0, turn as u64) else { panic!("no other one is made") };
        match counts.get_mut(stamp.epoch() as usize) {
            Some(count) => *count += 1,
            None => break,
        }
    }
    counts
}

#[test]
fn a_memory_has_pool_words_for_each_of_four_ports() {
    // An epoch has 32,768 pool words. An update claims 3 for its record and 93 ahead, and the next 31 updates claim none.
    // So 341 claims end within the pool, each for 32 updates. The next one ends past the pool, so it is for one update:
    // the update after that changes the epoch.
    assert_eq!(updates_of_epochs(Memory::builder().ports(4), 1), [32 * (32_768 / 96) + 1]);
}

#[test]
fn two_ports_claim_an_eighth_of_their_pool_ahead() {
    let builder = Memory::builder().ports(2).pool_words(800);
    // An update claims 3 words and 800 / 8 / 2 = 50 ahead, in which there are 16 records and 2 words that are left over.
    // So 15 claims of 53 words end within the pool, each for 17 updates, and the next one is for one update.
    assert_eq!(updates_of_epochs(builder, 1), [17 * 15 + 1]);
    // The ports claim in turns, so the second one makes the 16th claim, which ends past the pool, for its 120th update:
    // the one after 7 times 17. The first port makes its 121st, and the next update is of a new epoch. There no port uses
    // what it has claimed before, and the ports have changed places.
    assert_eq!(updates_of_epochs(builder, 2), [241; 3]);
}

#[test]
fn a_call_is_refused_with_its_cause() {
    let memory = tiny(&[1, 2], 1);
    let mut port = memory.port().expect("a port is free");
    let mut into = [7];
    assert_eq!(port.read(2), Err(Refused::Component));
    assert_eq!(port.update(2, 0), Err(Refused::Component));
    assert_eq!(port.scan(&[0, 1], &mut into), Err(Refused::Length));
    assert_eq!(port.scan(&[2], &mut into), Err(Refused::Component));
    assert_eq!(port.scan_array([0, 0, 0]), Err(Refused::Length));
    assert_eq!(port.scan_stamped([0, 0, 0]), Err(Refused::Length));
    assert_eq!(port.scan_stamped([0, 2]), Err(Refused::Component));
    assert_eq!(port.scan_stamped([]), Ok(([], Some([]))));
    let mut pair = [7; 2];
    assert_eq!(port.scan_stamped_slice(&[0, 1, 1], &mut pair), Err(Refused::Length));
    assert_eq!(port.scan_stamped_slice(&[0, 2], &mut pair), Err(Refused::Component));
    assert_eq!(pair, [7; 2]);
    assert_eq!(port.scan_stamped_slice(&[], &mut []), Ok(Some(vec![])));
    assert_eq!(into, [7]);
    assert_eq!(port.scan_array([]).expect("it makes no step"), []);
    assert_eq!(port.scan_array([1, 0]).expect("they are there"), [2, 1]);
}

#[test]
fn a_port_comes_back_from_a_thread_that_panics() {
    let memory = tiny(&[1], 1);
    let mut port = memory.port().expect("a port is free");
    let failed = std::thread::spawn(move || {
        assert!(port.update(0, 8).expect("it isn't refused").is_applied());
        panic!("its port is dropped");
    });
    assert!(failed.join().is_err());
    let mut port = memory.port().expect("it has come back");
    assert_eq!((port.number(), port.read(0).expect("it is there").value), (0, 8));
}

#[test]
fn a_clone_is_the_same_memory() {
    let memory = tiny(&[1, 2], 2);
    let other = memory.clone();
    let mut port = memory.port().expect("a port is free");
    assert!(port.update(1, 5).expect("it isn't refused").is_applied());
    let mut second = other.port().expect("the other port is free");
    assert_eq!(second.read(1).expect("it is there").value, 5);
    let Err(CloseError::InUse(memory)) = memory.close() else { panic!("two ports are in use") };
    drop(port);
    let Err(CloseError::InUse(memory)) = memory.close() else { panic!("a port is in use") };
    assert_eq!(second.read(1).expect("a refused close changes nothing").value, 5);
    drop(second);
    assert_eq!(memory.close().expect("both ports are free"), [1, 5]);
    assert_eq!(other.port().err(), Some(PortError::Closed));
    assert!(matches!(other.close(), Err(CloseError::Closed)));
}

#[test]
fn a_port_outlives_its_memory() {
    let mut port = tiny(&[1], 1).port().expect("a port is free");
    assert!(port.update(0, 9).expect("it isn't refused").is_applied());
    assert_eq!(port.read(0).expect("it is there").value, 9);
}

#[test]
fn stamps_are_those_of_one_memory() {
    let (one, other) = (tiny(&[1, 1], 1), tiny(&[1, 1], 1));
    let (mut first, mut second) = (one.port().expect("a port"), other.port().expect("a port"));
    let mut stamps = HashSet::new();
    for port in [&mut first, &mut second] {
        for turn in 0..200 {
            let Updated::Applied { stamp } = port.update(turn % 2, 5).expect("it isn't refused") else {
                panic!("no other port updates it");
            };
            assert!(stamps.insert(stamp));
            assert_eq!(port.read(turn % 2).expect("it is there").value, 5);
        }
    }
    assert_eq!(stamps.len(), 400);
}

#[test]
fn a_stamped_scan_agrees_with_reads_over_many_epochs() {
    let memory = tiny(&[1, 2, 3], 2);
    let (mut first, mut second) = (memory.port().expect("a port"), memory.port().expect("a port"));
    for turn in 0..300 {
        assert!(first.update(0, turn).expect("it isn't refused").is_applied());
        let (values, stamps) = second.scan_stamped([1, 0, 1]).expect("they are there");
        let reads = [1, 0, 1].map(|component| second.read(component).expect("it is there"));
        assert_eq!(values, reads.map(|read| read.value));
        assert_eq!(values, [turn + 2, turn, turn + 2]);
        let stamps = stamps.expect("nobody updates beside it");
        assert_eq!(stamps, reads.map(|read| read.stamp));
        let mut into = [0; 3];
        assert_eq!(second.scan_stamped_slice(&[1, 0, 1], &mut into), Ok(Some(stamps.to_vec())));
        assert_eq!(into, values);
        assert_eq!(second.unchanged([(1, stamps[0]), (0, stamps[1])]), Ok(true));
        assert!(matches!(second.update_if(1, stamps[2], turn + 3), Ok(UpdatedIf::Applied { .. })));
        assert!(matches!(second.update_if(1, stamps[2], 0), Ok(UpdatedIf::Changed { .. })));
    }
    assert!(second.read(0).expect("it is there").stamp.epoch() > 10);
}

#[test]
fn a_stamped_scan_beside_writers_gives_each_value_its_stamp() {
    let memory = tiny(&[0; 3], 4);
    std::thread::scope(|scope| {
        for component in 0..3 {
            let mut port = memory.port().expect("a port is free");
            scope.spawn(move || {
                for value in 1..=3000 {
                    assert!(set(&mut port, component, value).is_applied());
                }
            });
        }
        let mut port = memory.port().expect("a port is free");
        let mut last: [Option<(u64, Stamp)>; 3] = [None; 3];
        for _ in 0..3000 {
            let (values, stamps) = port.scan_stamped([0, 1, 2]).expect("it isn't refused");
            let Some(stamps) = stamps else { continue };
            for (k, stamp) in stamps.into_iter().enumerate() {
                if let Some((value, seen)) = last[k] {
                    assert!(value <= values[k]);
                    assert_eq!(value == values[k], seen == stamp);
                }
                last[k] = Some((values[k], stamp));
            }
        }
    });
    let mut port = memory.port().expect("a port is free again");
    let (values, stamps) = port.scan_stamped([2, 1, 0]).expect("it isn't refused");
    assert_eq!(values, [3000; 3]);
    assert!(stamps.is_some() && port.scan_stamped([2, 1, 0]).expect("it isn't refused") == (values, stamps));
}

#[test]
fn a_stamp_of_another_memory_is_refused() {
    let (one, other) = (tiny(&[1], 1), tiny(&[1], 1));
    let (mut first, mut second) = (one.port().expect("a port"), other.port().expect("a port"));
    let stamp = first.read(0).expect("it is there").stamp;
    assert_eq!(second.update_if(0, stamp, 3), Err(Refused::Stamp));
    assert_eq!(first.update_if(1, stamp, 3), Err(Refused::Component));
    assert!(matches!(first.update_if(0, stamp, 3), Ok(UpdatedIf::Applied { .. })));
    assert_eq!(second.read(0).expect("it is there").value, 1);
}

#[test]
fn ports_of_one_memory_meet_and_no_others() {
    let (one, other) = (tiny(&[1, 2], 2), tiny(&[1, 2], 1));
    let (mut first, mut second) = (one.port().expect("a port"), one.port().expect("a port"));
    let mut stranger = other.port().expect("a port");
    for value in 0..100 {
        assert!(first.update(0, value).expect("it isn't refused").is_applied());
    }
    assert_eq!(second.meet(&mut first), Ok(()));
    let seen = second.read(0).expect("it is there");
    assert!(seen.value == 99 && seen.stamp.epoch() > 10);
    assert_eq!(first.unchanged([(0, seen.stamp)]), Ok(true));
    assert_eq!(first.meet(&mut stranger), Err(TwoMemories));
    assert_eq!(stranger.unchanged([(0, seen.stamp)]), Err(Refused::Stamp));
}

#[test]
fn no_conditional_increment_is_lost_over_many_epochs() {
    let memory = tiny(&[0; 2], 4);
    std::thread::scope(|scope| {
        for _ in 0..4 {
            let mut port = memory.port().expect("a port is free");
            scope.spawn(move || {
                for turn in 0..2000 {
                    let change = port.modify(turn % 2, |value| Some(value + 1)).expect("it isn't refused so often");
                    let change = change.expect("the closure gives a value");
                    assert_eq!(change.after.value, change.before.value + 1);
                }
            });
        }
    });
    let mut port = memory.port().expect("a port is free again");
    assert!(port.read(0).expect("it is there").stamp.epoch() > 100);
    drop(port);
    assert_eq!(memory.close().expect("all ports are free"), [4000; 2]);
}

#[test]
fn errors_and_ports_may_go_to_other_threads() {
    fn is_error<E: Error + Send + Sync + 'static>() {}
    fn is_shared<T: Send + Sync + 'static>() {}
    is_error::<OpenError>();
    is_error::<PortError>();
    is_error::<Refused>();
    is_error::<CloseError>();
    is_shared::<Port>();
    is_shared::<Memory>();
    is_shared::<Stamp>();
}

#[test]
fn errors_have_the_numbers_of_the_library() {
    let opened =
        [OpenError::Components, OpenError::ListWords, OpenError::PoolWords, OpenError::Ports, OpenError::OutOfMemory];
    assert_eq!(opened.map(OpenError::code), [1, 3, 4, 5, 6]);
    assert_eq!(OpenError::OtherVersion.code(), 31);
    assert_eq!([PortError::OutOfMemory, PortError::Closed, PortError::NoneFree].map(PortError::code), [6, 17, 21]);
    let refused = [Refused::Component, Refused::Length, Refused::Overtaken, Refused::EpochsSpent];
    assert_eq!(refused.map(Refused::code), [7, 19, 25, 27]);
    assert_eq!([Refused::Stamp, Refused::Key, Refused::OutOfMemory].map(Refused::code), [28, 29, 6]);
    let memory = tiny(&[1], 1);
    let _port = memory.port().expect("a port is free");
    let error = memory.close().expect_err("a port is in use");
    assert_eq!((error.code(), error.to_string().as_str()), (22, "a port is in use"));
}

#[test]
fn a_memory_says_what_answers_its_calls() {
    let text = format!("{:?}", tiny(&[1, 2], 1));
    assert!(text.contains("components: 2") && text.contains(&format!("engine: {ENGINE:?}")), "{text}");
    assert_eq!(matches!(ENGINE, Engine::Plain), cfg!(feature = "plain"));
}
