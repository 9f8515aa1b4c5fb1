//! What is measured.

use crate::objects::{faces, faces_of, Face, Faces, NO_LISTS, SIZES};
use crate::parts::{Parts, Sample};
use crate::processors;
use partial_door::{opening as openings, Memory, Updated};
use std::hint::black_box;
use std::sync::atomic::{AtomicBool, AtomicUsize, Ordering::SeqCst};
use std::time::{Duration, Instant};

const M: usize = 64;
const MANY_M: usize = 16_384;
const GREATEST_M: usize = 65_536;
// Of a part.
const CALLS: u32 = 1_000;
// Parts of a repetition. The slots of a memory have room for those of scans.
const PARTS: u32 = 200;
const PARTS_OF_SCANS: u32 = 60;
// Of 100 million updates, for which an opening has no room.
const MANY_PARTS: u32 = 100_000;
// The pool of a memory has room for the views that the updates store.
const PARTS_OF_BOTH: u32 = 20;
// Of a row of one thread, in each repetition, and of a row of several.
const ROUNDS_ALONE: usize = 20;
const ROUNDS: usize = 5;
// Of 100 million updates.
const ROUNDS_OF_MANY: usize = 3;
const OPENINGS: usize = 3;
const MONITORS: usize = 3;
const WRITERS: usize = 3;
// Of a monitor. The list words of a memory have room for those that its writers publish.
const SCANS: u32 = 2_000;
// For which a monitor and its writers share two processors, so that each has its turn many times.
const SHARED: Duration = Duration::from_millis(150);

/// One row of the table, or one for each ending.
pub struct Bench {
    pub name: &'static str,
    pub endings: &'static [&'static str],
    /// Whether the opening is compared by its time and not by its speed.
    pub is_time: bool,
    /// How often it is measured in each repetition.
    pub rounds: usize,
    /// What a cell is of all its measurements.
    pub cell: fn(Vec<f64>) -> f64,
    pub run: fn(&str) -> Sample,
}

/// A row of several threads.
const fn speed(name: &'static str, run: fn(&str) -> Sample) -> Bench {
    Bench { name, endings: &[""], is_time: false, rounds: ROUNDS, cell: median, run }
}

/// A row of one thread, which says what a call takes where nothing else slows the processor.
const fn alone(name: &'static str, run: fn(&str) -> Sample) -> Bench {
    Bench { rounds: ROUNDS_ALONE, cell: least, ..speed(name, run) }
}

/// The same, in objects whose opening takes long.
const fn alone_and_large(name: &'static str, run: fn(&str) -> Sample) -> Bench {
    Bench { rounds: ROUNDS, ..alone(name, run) }
}

/// The same, where each measurement takes long.
const fn alone_and_long(name: &'static str, run: fn(&str) -> Sample) -> Bench {
    Bench { rounds: 1, ..alone(name, run) }
}

pub const BENCHES: [Bench; 26] = [
    alone("read, 1 thread", |name| timed(name, 1, PARTS, rest, read)),
    alone("read by a key, 1 thread", |name| by_keys(name, PARTS, read)),
    speed("read, 4 threads", |name| timed(name, 4, PARTS, rest, read)),
    alone("update, 1 thread, nobody scans", |name| timed(name, 1, PARTS, rest, update)),
    alone("update by a key, 1 thread, nobody scans", |name| by_keys(name, PARTS, update)),
    alone_and_large("update, 1 thread, 16,384 components", |name| of_many(name, PARTS, update_of::<MANY_M>)),
    Bench { rounds: ROUNDS_OF_MANY, ..alone("update, 1 thread, 100 million of them", many) },
    speed("update, 2 threads, nobody scans", |name| timed(name, 2, PARTS, rest, update)),
    speed("update, 4 threads, nobody scans", |name| timed(name, 4, PARTS, rest, update)),
    alone("update, 1 thread, after scans", |name| timed(name, 1, PARTS, scan_often, update)),
    alone_and_long("update, 1 thread, after scans, no list words left", without_lists),
    alone("add one, 1 thread, nobody scans", |name| timed(name, 1, PARTS, rest, add_one)),
    alone("add one by a key, 1 thread, nobody scans", |name| by_keys(name, PARTS, add_one)),
    alone("scan of 4, 1 thread", |name| timed(name, 1, PARTS_OF_SCANS, rest, scan::<4>)),
    alone("scan of 4 by keys, 1 thread", |name| by_keys(name, PARTS_OF_SCANS, scan::<4>)),
    alone_and_large("scan of 4, 1 thread, 16,384 components", |name| {
        of_many(name, PARTS_OF_SCANS, scan_of::<MANY_M, 4>)
    }),
    alone("scan of 16, 1 thread", |name| timed(name, 1, PARTS_OF_SCANS, rest, scan::<16>)),
    alone("9 reads to an update, 1 thread", |name| timed(name, 1, PARTS, rest, mostly_reads)),
    speed("9 reads to an update, 4 threads", |name| timed(name, 4, PARTS, rest, mostly_reads)),
    speed("a scan of 8 to 9 updates, 4 threads", |name| timed(name, 4, PARTS_OF_BOTH, rest, some_scans)),
    speed("update of 3 writers beside scans of 8", writers),
    Bench {
        name: "scan of 8 beside 3 writers",
        endings: &[": half take at most", ": 99 % take at most", ": 99.9 % take at most", ": the slowest takes"],
        is_time: true,
        rounds: 1,
        cell: median,
        run: monitor,
    },
    Bench {
        name: "3 writers, 1 scanner, 2 processors",
        endings: &[": mean scan of 8", ": 99 % of scans", ": slowest scan", ": mean update"],
        is_time: true,
        rounds: 1,
        cell: median,
        run: sharing,
    },
    Bench { is_time: true, ..alone("an update that changes the epoch", changes) },
    Bench { is_time: true, ..alone_and_long("opening the greatest memory, in milliseconds", opening) },
    Bench { is_time: true, ..alone_and_long("closing and reopening it, in milliseconds", reopening) },
];

type Work = fn(&mut dyn Face, u32, u32);

// Nanoseconds of a call, where each thread makes so many parts, or fewer where another one has made them all.
fn timed(name: &str, threads: usize, parts: u32, before: fn(&mut dyn Face), work: Work) -> Sample {
    timed_on(faces(name, M, threads), parts, before, work)
}

// The same on a thread for each of these faces.
fn timed_on((_memory, mut all): Faces, parts: u32, before: fn(&mut dyn Face), work: Work) -> Sample {
    let threads = all.len();
    before(&mut *all[0]);
    let (ready, over) = (AtomicUsize::new(0), AtomicBool::new(false));
    let made: Vec<Parts> = std::thread::scope(|scope| {
        let started: Vec<_> = all
            .into_iter()
            .enumerate()
            .map(|(thread, mut face)| {
                let (ready, over) = (&ready, &over);
                scope.spawn(move || {
                    make_calls(&mut *face, thread as u32, 0, work);
                    let mut made = Parts::new();
                    wait_for(ready, threads);
                    for part in 1..=parts {
                        made.time(|| make_calls(&mut *face, thread as u32, part, work), |_| !over.load(SeqCst));
                        if over.load(SeqCst) {
                            break;
                        }
                    }
                    over.store(true, SeqCst);
                    made
                })
            })
            .collect();
        started.into_iter().map(|thread| thread.join().expect("it ends")).collect()
    });
    let call = |times: Vec<f64>| times.iter().sum::<f64>() / times.len() as f64 / f64::from(CALLS);
    Sample::of(&made, &[], |times| vec![call(times)])
}

fn make_calls(face: &mut dyn Face, thread: u32, part: u32, work: Work) {
    for call in part * CALLS..(part + 1) * CALLS {
        work(face, thread, call);
    }
}

/// Waits until all threads are here, without giving the processor away.
pub fn wait_for(ready: &AtomicUsize, threads: usize) {
    ready.fetch_add(1, SeqCst);
    while ready.load(SeqCst) < threads {
        std::hint::spin_loop();
    }
}

// Updates without end of a long-lived memory, with all their changes of epoch.
fn many(name: &str) -> Sample {
    if name != "memory" {
        return Sample::none();
    }
    timed(name, 1, MANY_PARTS, rest, update)
}

// Calls of the long-lived memory by keys.
fn by_keys(name: &str, parts: u32, work: Work) -> Sample {
    if name != "memory" {
        return Sample::none();
    }
    timed("memory by keys", 1, parts, rest, work)
}

// Calls of one thread in an object of many components.
fn of_many(name: &str, parts: u32, work: Work) -> Sample {
    timed_on(faces(name, MANY_M, 1), parts, rest, work)
}

// An update in an opening that has no room for a list of the slots that scans have left: each update walks over them.
fn without_lists(name: &str) -> Sample {
    if !matches!(name, "opening" | "raw" | "called") {
        return Sample::none();
    }
    timed_on(faces_of(name, M, 1, NO_LISTS), PARTS_OF_SCANS, scan_often, update)
}

fn rest(_face: &mut dyn Face) {}

fn scan_often(face: &mut dyn Face) {
    for call in 0..1_000 {
        scan::<4>(face, 0, call);
    }
}

fn read(face: &mut dyn Face, thread: u32, call: u32) {
    black_box(face.read((thread + call) % M as u32));
}

fn update(face: &mut dyn Face, thread: u32, call: u32) {
    update_of::<M>(face, thread, call);
}

// An update of an object of N components.
fn update_of<const N: usize>(face: &mut dyn Face, thread: u32, call: u32) {
    let made = face.update((thread + call) % N as u32, u64::from(call));
    assert!(made, "the pool is large enough");
}

fn add_one(face: &mut dyn Face, thread: u32, call: u32) {
    let made = face.add_one((thread + call) % M as u32);
    assert!(made, "the pool is large enough");
}

fn scan<const R: usize>(face: &mut dyn Face, thread: u32, call: u32) {
    scan_of::<M, R>(face, thread, call);
}

// A scan of an object of N components.
fn scan_of<const N: usize, const R: usize>(face: &mut dyn Face, thread: u32, call: u32) {
    assert!(may_scan::<N, R>(face, thread, call), "the pool and the slots are large enough");
}

// Whether the scan was made.
fn may_scan<const N: usize, const R: usize>(face: &mut dyn Face, thread: u32, call: u32) -> bool {
    let which: [u32; R] = std::array::from_fn(|k| (thread + call + k as u32) % N as u32);
    let mut into = [0; R];
    let made = face.scan(&which, &mut into);
    black_box(&into);
    made
}

fn mostly_reads(face: &mut dyn Face, thread: u32, call: u32) {
    if call % 10 == 0 {
        update(face, thread, call);
    } else {
        read(face, thread, call);
    }
}

fn some_scans(face: &mut dyn Face, thread: u32, call: u32) {
    if call % 10 == 0 {
        scan::<8>(face, thread, call);
    } else {
        update(face, thread, call);
    }
}

// The quantiles of a scan of 8 components in one thread, and the slowest of them, in nanoseconds, while three writers are
// at work. Each scan is a part. They end early where the writers have used up the pool.
fn monitor(name: &str) -> Sample {
    let (mut scans, mut updates) = (Vec::new(), Vec::new());
    for _ in 0..MONITORS {
        let (eye, writers) = scan_beside_writers(name);
        scans.push(eye);
        updates.extend(writers);
    }
    Sample::of(&scans, &updates, |mut times| {
        times.sort_by(f64::total_cmp);
        [0.5, 0.99, 0.999, 1.0].map(|part| times[((part * times.len() as f64) as usize).min(times.len() - 1)]).to_vec()
    })
}

// Nanoseconds of an update of the three writers, while a monitor scans.
fn writers(name: &str) -> Sample {
    let (scans, updates) = scan_beside_writers(name);
    Sample::of(&updates, &[scans], |times| vec![times.iter().sum::<f64>() / times.len() as f64 / f64::from(CALLS)])
}

// The parts of a monitor in a new object, and those of the writers.
fn scan_beside_writers(name: &str) -> (Parts, Vec<Parts>) {
    let (_memory, mut all) = faces(name, M, WRITERS + 1);
    let mut eye = all.pop().expect("a face for each thread");
    let (ready, at_work) = (AtomicUsize::new(0), AtomicUsize::new(WRITERS));
    let writing = Writing { ready, at_work, over: AtomicBool::new(false) };
    std::thread::scope(|scope| {
        let writing = &writing;
        let writer = |(thread, mut face): (usize, Box<dyn Face>)| {
            scope.spawn(move || write(&mut *face, thread as u32, writing))
        };
        let writers: Vec<_> = all.into_iter().enumerate().map(writer).collect();
        let mut scans = Parts::new();
        wait_for(&writing.ready, WRITERS + 1);
        for call in 0..SCANS {
            let counts = |&made: &bool| made && writing.at_work.load(SeqCst) == WRITERS;
            if !scans.time(|| may_scan::<M, 8>(&mut *eye, 0, call), counts) {
                break;
            }
        }
        writing.over.store(true, SeqCst);
        (scans, writers.into_iter().map(|writer| writer.join().expect("it ends")).collect())
    })
}

// What a monitor and its writers share: how many of them are ready, how many writers haven't ended, and whether the
// monitor has made its scans.
struct Writing {
    ready: AtomicUsize,
    at_work: AtomicUsize,
    over: AtomicBool,
}

// Updates until the end, or until the pool of a memory is used up. The first thousand updates are made before the
// monitor begins.
fn write(face: &mut dyn Face, thread: u32, writing: &Writing) -> Parts {
    make_calls(face, thread, 0, update);
    let mut parts = Parts::new();
    wait_for(&writing.ready, WRITERS + 1);
    let mut goes_on =
        |call: u32| !writing.over.load(SeqCst) && face.update((thread + call) % M as u32, u64::from(call));
    let mut part = 1;
    while parts.time(|| (part * CALLS..(part + 1) * CALLS).all(&mut goes_on), |_| true) {
        part += 1;
    }
    writing.at_work.fetch_sub(1, SeqCst);
    parts
}

// Nanoseconds of a scan of 8 components: the mean, 99 of 100, the slowest; and of an update of three writers. All four
// threads share two processors, and the time that they wait for one counts. Objects that wear out have no room for so
// many updates.
fn sharing(name: &str) -> Sample {
    if !matches!(name, "memory" | "mutex" | "rwlock" | "seqlock" | "collects" | "plain") {
        return Sample::none();
    }
    let (_memory, mut all) = faces(name, M, WRITERS + 1);
    let mut eye = all.pop().expect("a face for each thread");
    let end = Instant::now() + SHARED;
    let (scans, updates) = std::thread::scope(|scope| {
        let scanner = scope.spawn(move || {
            processors::stay_on(2);
            let mut scans = Parts::shared();
            let mut call = 0;
            while Instant::now() < end {
                scans.time(|| scan::<8>(&mut *eye, 0, call), |_| true);
                call += 1;
            }
            scans
        });
        let writer = |(thread, mut face): (usize, Box<dyn Face>)| {
            scope.spawn(move || {
                processors::stay_on(2);
                let (begin, mut part) = (Instant::now(), 0);
                while Instant::now() < end {
                    for call in part * CALLS..(part + 1) * CALLS {
                        face.update((thread as u32 + call) % M as u32, u64::from(call));
                    }
                    part += 1;
                }
                begin.elapsed().as_nanos() as f64 / f64::from(part * CALLS)
            })
        };
        let writers: Vec<_> = all.into_iter().enumerate().map(writer).collect();
        let updates: f64 = writers.into_iter().map(|writer| writer.join().expect("it ends")).sum();
        (scanner.join().expect("it ends"), updates / WRITERS as f64)
    });
    Sample::of(&[scans], &[], |mut times| {
        times.sort_by(f64::total_cmp);
        let slowest = times.len() - 1;
        vec![times.iter().sum::<f64>() / times.len() as f64, times[slowest - slowest / 100], times[slowest], updates]
    })
}

// Nanoseconds of an update that changes the epoch, which is a part.
fn changes(name: &str) -> Sample {
    if name != "memory" {
        return Sample::none();
    }
    let memory = Memory::builder().ports(1).open(&[0; M]).expect("it opens");
    let mut port = memory.port().expect("a port is free");
    let mut update = |call: u32| match port.update(call % M as u32, u64::from(call)).expect("it is made") {
        Updated::Applied { stamp } | Updated::Lost { by: stamp } => stamp.epoch(),
    };
    let mut epoch = update(0);
    let mut parts = Parts::new();
    for call in 1..PARTS * CALLS {
        parts.find(|| update(call), |&now| std::mem::replace(&mut epoch, now) != now);
    }
    Sample::of(&[parts], &[], |times| vec![median(times)])
}

// Milliseconds of an opening, which is a part.
fn opening(name: &str) -> Sample {
    if !matches!(name, "opening" | "raw") {
        return Sample::none();
    }
    let mut parts = Parts::new();
    for _ in 0..OPENINGS {
        parts.time(|| faces(name, GREATEST_M, 1), |_| true);
    }
    Sample::of(&[parts], &[], |times| vec![median(times) / 1_000_000.0])
}

// Milliseconds of a close and of an opening with its values, which are a part.
fn reopening(name: &str) -> Sample {
    if name != "opening" {
        return Sample::none();
    }
    let m = GREATEST_M as u32;
    let mut opened = openings::open(&[0; GREATEST_M], SIZES, 1).expect("it opens");
    let mut parts = Parts::new();
    for _ in 0..OPENINGS {
        let (memory, ports) = opened;
        let reopen = || memory.close(ports).expect("it closes").reopen(m, SIZES, 1).expect("it reopens");
        opened = parts.time(reopen, |_| true);
    }
    Sample::of(&[parts], &[], |times| vec![median(times) / 1_000_000.0])
}

/// The least of some values.
fn least(values: Vec<f64>) -> f64 {
    values.into_iter().fold(f64::INFINITY, f64::min)
}

/// The median of some values.
pub fn median(mut values: Vec<f64>) -> f64 {
    values.sort_by(f64::total_cmp);
    values[values.len() / 2]
}
