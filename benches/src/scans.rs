//! What a scan of all components takes beside writers, in memories where scans announce themselves and in others.

use crate::benches::wait_for;
use crate::parts::Times;
use crate::sizes::{grouped, update, Row};
use partial_door::{Memory, Port};
use std::hint::black_box;
use std::sync::atomic::{AtomicBool, AtomicUsize, Ordering::SeqCst};
use std::time::{Duration, Instant};

// Components and ports.
const SIZES: [(usize, u32); 5] = [(64, 4), (1_024, 4), (16_384, 4), (16_384, 5), (65_536, 4)];
const WRITERS: u32 = 3;
// Of all scans of a repetition together.
const POSITIONS: usize = 2_000_000;
// The fewest scans of a repetition: so many that the slowest of them isn't the time that 99 % take at most.
const FEWEST: usize = 200;
// Ports times components of the greatest memory in which scans announce themselves.
const MOST_ANNOUNCED: usize = 65_536;

/// The samples of each size, one for each repetition.
pub struct Scans(Vec<Row<4>>);

impl Scans {
    pub fn new() -> Scans {
        Scans(SIZES.map(|(components, ports)| Row::new(components, ports)).into())
    }

    /// Measures each size once.
    pub fn add(&mut self) {
        for row in &mut self.0 {
            row.samples.push(sample(row.components, row.ports));
        }
    }

    /// Prints the medians in Markdown.
    pub fn print(&self) {
        println!("A scan of all components beside {WRITERS} writers, in nanoseconds, and an update of theirs:\n");
        print!("| components | ports | announced | half of the scans take at most | 99 % take at most | the slowest ");
        println!("| an update beside it |");
        println!("|---|---|---|---|---|---|---|");
        for row in &self.0 {
            let announced = if are_announced(row.components, row.ports) { "yes" } else { "no" };
            println!("| {} | {} | {announced} | {} |", grouped(row.components), row.ports, row.cells());
        }
    }
}

// Whether a scan that updates disturb announces itself in a memory of this size. Otherwise it changes the epoch.
fn are_announced(components: usize, ports: u32) -> bool {
    ports as usize * components <= MOST_ANNOUNCED
}

// Nanoseconds of a scan: half of them, 99 of 100, the slowest; and of an update of the writers, in the mean. There are
// none when no memory of this size opens, and those of scans are none when each was left out.
fn sample(components: usize, ports: u32) -> [Option<f64>; 4] {
    let Ok(memory) = Memory::builder().ports(ports).open(&vec![0; components]) else {
        return [None; 4];
    };
    let (mut times, written) = scan_beside_writers(&memory);
    times.sort_unstable();
    let slowest = times.len().saturating_sub(1);
    let at = |at: usize| times.get(at).copied().map(f64::from);
    let [half, most, slowest] = [slowest / 2, slowest - slowest / 100, slowest].map(at);
    let took: Duration = written.iter().map(|written| written.took).sum();
    let updates: u32 = written.iter().map(|written| written.updates).sum();
    [half, most, slowest, Some(took.as_nanos() as f64 / f64::from(updates))]
}

// The times of the scans of a repetition, in nanoseconds, and what each writer made meanwhile.
fn scan_beside_writers(memory: &Memory) -> (Vec<u32>, Vec<Written>) {
    let (ready, over) = (AtomicUsize::new(0), AtomicBool::new(false));
    let begin = || {
        let port = memory.port().expect("a port is free");
        wait_for(&ready, WRITERS as usize + 1);
        port
    };
    std::thread::scope(|scope| {
        let (begin, over) = (&begin, &over);
        let start = |thread| scope.spawn(move || write(&mut begin(), thread, memory.len(), over));
        let writers: Vec<_> = (0..WRITERS).map(start).collect();
        let times = scan(&mut begin(), memory.len());
        over.store(true, SeqCst);
        (times, writers.into_iter().map(|writer| writer.join().expect("it ends")).collect())
    })
}

// Scans all components again and again. Returns the times, in nanoseconds.
fn scan(port: &mut Port, components: usize) -> Vec<u32> {
    let mut times = Times::new();
    let mut into = vec![0; components];
    for _ in 0..FEWEST.max(POSITIONS / components) {
        times.time(|| port.scan_all(&mut into).expect("it is made"));
        black_box(&into);
    }
    times.kept().to_vec()
}

// How many updates a writer made, and how long they took in all.
struct Written {
    took: Duration,
    updates: u32,
}

// Updates the components in turns, until the scans are made.
fn write(port: &mut Port, thread: u32, components: usize, over: &AtomicBool) -> Written {
    let (begin, mut updates) = (Instant::now(), 0);
    while updates == 0 || !over.load(SeqCst) {
        update(port, thread + updates, components);
        updates += 1;
    }
    Written { took: begin.elapsed(), updates }
}

#[cfg(test)]
mod tests {
    use super::*;

    #[test]
    fn the_slowest_scan_takes_no_less_than_others() {
        let [half, most, slowest, update] = sample(64, 4).map(|value| value.expect("it opens"));
        assert!(0.0 < half && half <= most && most <= slowest && update > 0.0, "{half} {most} {slowest} {update}");
    }

    #[test]
    fn scans_are_announced_where_a_memory_has_room_for_their_views() {
        let bytes = |components| Memory::builder().ports(4).open(&vec![0; components]).expect("it opens").bytes();
        assert!(are_announced(16_384, 4) && !are_announced(16_385, 4) && !are_announced(16_384, 5));
        assert!(bytes(16_384) > bytes(16_385));
    }
}
