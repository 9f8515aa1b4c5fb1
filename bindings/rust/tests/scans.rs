//! Scans of a memory that has so many ports and components that no scan announces itself, beside threads that update.

use partial_door::{Memory, Port, Stamp, Updated};
use std::sync::atomic::{AtomicBool, Ordering};
use std::thread;

const WRITERS: usize = 4;
/// With 5 ports these are more than 65,536 components times ports.
const COMPONENTS: usize = 16_384;
/// The two components of each writer.
const PAIRS: [[u32; 2]; WRITERS] = [[0, 16_383], [1, 2], [5_000, 9], [16_382, 8_192]];
/// The same in one list: those of writer `w` are at `2 w` and `2 w + 1`.
const ALL: [u32; 2 * WRITERS] = [0, 16_383, 1, 2, 5_000, 9, 16_382, 8_192];

/// The values of both components of each writer.
type Pairs = [[u64; 2]; WRITERS];

/// Sets a component that no other port sets, and returns the stamp of the update.
fn set(port: &mut Port, component: u32, value: u64) -> Stamp {
    match port.retry(|port| port.update(component, value)) {
        Ok(Updated::Applied { stamp }) => stamp,
        other => panic!("the update ends with {other:?}"),
    }
}

/// The pairs in the values of a scan of [`ALL`].
fn paired(values: [u64; 2 * WRITERS]) -> Pairs {
    std::array::from_fn(|writer| [values[2 * writer], values[2 * writer + 1]])
}

/// Scans all components, of which nobody sets another one than those of the writers.
fn scan_all(port: &mut Port, values: &mut [u64]) -> Pairs {
    assert_eq!(port.scan_all(values).expect("it isn't refused").borrowed, None);
    assert!((0..).zip(&*values).all(|(component, &value)| value == 0 || ALL.contains(&component)));
    PAIRS.map(|pair| pair.map(|component| values[component as usize]))
}

/// Holds the pairs of a scan against those of an earlier one, by a port of the same thread.
fn judge(before: &mut Pairs, found: Pairs) {
    for (before, found) in before.iter().zip(&found) {
        // A writer sets its first component to a number, and then the second one.
        assert!(found[0] == found[1] || found[0] == found[1] + 1, "{found:?}");
        assert!(before[0] <= found[0] && before[1] <= found[1], "{before:?} {found:?}");
    }
    *before = found;
}

/// Counts both components of a writer up until the others are done, and scans all of them now and then. Returns the
/// stamps of both for each number: those that the memory opens with are those of 0.
fn write(port: &mut Port, writer: usize, is_over: &AtomicBool) -> Vec<[Stamp; 2]> {
    let mut stamps = vec![PAIRS[writer].map(|component| port.read(component).expect("it is there").stamp)];
    let (mut before, mut values) = ([[0; 2]; WRITERS], vec![0; COMPONENTS]);
    while !is_over.load(Ordering::Relaxed) {
        let number = stamps.len() as u64;
        stamps.push(PAIRS[writer].map(|component| set(port, component, number)));
        if number % 4096 == 0 {
            judge(&mut before, scan_all(port, &mut values));
            assert_eq!(before[writer], [number; 2]);
        }
    }
    stamps
}

/// What scans with stamps have found: the values and the stamps of the components in [`ALL`].
type Found = Vec<([u64; 2 * WRITERS], [Stamp; 2 * WRITERS])>;

/// Makes scans of all components, and of those of the writers, with stamps and without.
fn scan(port: &mut Port) -> Found {
    let (mut before, mut values, mut found) = ([[0; 2]; WRITERS], vec![0; COMPONENTS], Vec::new());
    for turn in 0..400 {
        judge(&mut before, paired(port.scan_array(ALL).expect("it isn't refused")));
        let (shown, stamps) = port.scan_stamped(ALL).expect("it isn't refused");
        judge(&mut before, paired(shown));
        found.push((shown, stamps.expect("no scan is helped")));
        if turn % 8 == 0 {
            judge(&mut before, scan_all(port, &mut values));
        }
    }
    found
}

#[test]
fn scans_that_nobody_disturbs_change_no_epoch() {
    let memory = Memory::builder().ports(5).pool_words(1).open(&[0; COMPONENTS]).expect("a memory is made");
    let mut ports: [Port; 3] = std::array::from_fn(|_| memory.port().expect("a port is free"));
    for value in 1..=3 {
        let _ = set(&mut ports[0], 0, value);
    }
    // The epoch of the other ports has ended. A scan by one of them enters the current epoch, and ends it for nobody else.
    for turn in 0..6 {
        assert_eq!(ports[1 + turn % 2].scan_array([0, 1]), Ok([3, 0]));
    }
    // An update without spare words spends its port, and only the next one changes the epoch.
    let epoch = ports[0].read(0).expect("it is there").stamp.epoch();
    assert_eq!(set(&mut ports[1], 0, 4).epoch(), epoch);
}

#[test]
fn scans_that_announce_nothing_are_right_beside_four_writers() {
    let memory = Memory::builder().ports(5).open(&[0; COMPONENTS]).expect("a memory is made");
    let mut port = memory.port().expect("a port is free");
    let is_over = AtomicBool::new(false);
    let (found, stamps) = thread::scope(|scope| {
        let is_over = &is_over;
        let writers: Vec<_> = (0..WRITERS)
            .map(|writer| {
                let mut port = memory.port().expect("a port is free");
                scope.spawn(move || write(&mut port, writer, is_over))
            })
            .collect();
        let scanner = scope.spawn(move || scan(&mut port));
        let found = scanner.join();
        is_over.store(true, Ordering::Relaxed);
        let stamps: Vec<_> = writers.into_iter().map(|writer| writer.join().expect("no writer panics")).collect();
        (found.expect("the scanner doesn't panic"), stamps)
    });
    // A stamp is that of the update that set the value beside it.
    for (values, shown) in found {
        for (at, (value, stamp)) in values.into_iter().zip(shown).enumerate() {
            assert_eq!(stamp, stamps[at / 2][value as usize][at % 2], "component {} is {value}", ALL[at]);
        }
    }
    let last = memory.close().expect("all ports are free");
    for (pair, stamps) in PAIRS.iter().zip(&stamps) {
        assert_eq!(pair.map(|component| last[component as usize]), [stamps.len() as u64 - 1; 2]);
    }
}
