//! What an update takes in memories of several sizes, with all changes of epoch.

use crate::benches::{median, wait_for};
use crate::parts::{Parts, Sample, Times};
use partial_door::{Memory, Port, Updated};
use std::sync::atomic::AtomicUsize;

const COMPONENTS: [usize; 5] = [1, 64, 1_024, 16_384, 65_536];
const PORTS: [u32; 2] = [1, 4];
// Of all threads of a memory together, in a repetition: so many in parts, which give the mean, and as many one by one.
const UPDATES: u32 = 400_000;
// Of a part.
const CALLS: u32 = 1_000;

/// The samples of each size, one for each repetition.
pub struct Sizes(Vec<Row<5>>);

/// Those of one size.
pub struct Row<const N: usize> {
    pub components: usize,
    pub ports: u32,
    pub samples: Vec<[Option<f64>; N]>,
}

impl<const N: usize> Row<N> {
    pub fn new(components: usize, ports: u32) -> Row<N> {
        Row { components, ports, samples: Vec::new() }
    }

    /// The medians, as cells of Markdown.
    pub fn cells(&self) -> String {
        let cell_at = |at: usize| cell(self.samples.iter().filter_map(|sample| sample[at]).collect());
        std::array::from_fn::<String, N, _>(cell_at).join(" | ")
    }
}

impl Sizes {
    pub fn new() -> Sizes {
        Sizes(PORTS.iter().flat_map(|&ports| COMPONENTS.map(|components| Row::new(components, ports))).collect())
    }

    /// Measures each size once.
    pub fn add(&mut self) {
        for row in &mut self.0 {
            row.samples.push(sample(row.components, row.ports));
        }
    }

    /// Prints the medians in Markdown. A memory that doesn't open has none.
    pub fn print(&self) {
        println!("An update of the long-lived memory, in nanoseconds, and how many of them an epoch has:\n");
        print!("| components | ports | mean | 99.99 % take at most | half of those that change the epoch ");
        println!("| the slowest | updates an epoch |");
        println!("|---|---|---|---|---|---|---|");
        for row in &self.0 {
            println!("| {} | {} | {} |", grouped(row.components), row.ports, row.cells());
        }
    }
}

/// A number below a million, its thousands apart.
pub fn grouped(number: usize) -> String {
    match number {
        0..1_000 => number.to_string(),
        _ => format!("{},{:03}", number / 1_000, number % 1_000),
    }
}

fn cell(values: Vec<f64>) -> String {
    if values.is_empty() {
        return "-".to_string();
    }
    match median(values) {
        small if small < 100.0 => format!("{small:.1}"),
        large => format!("{large:.0}"),
    }
}

// Nanoseconds of an update: the mean, one of 10,000, half of those that end in a later epoch than the one before, the
// slowest; and how many updates an epoch has. Each port has a thread. There are none when a memory of this size doesn't
// open.
fn sample(components: usize, ports: u32) -> [Option<f64>; 5] {
    let Ok(memory) = Memory::builder().ports(ports).open(&vec![0; components]) else {
        return [None; 5];
    };
    let ready = AtomicUsize::new(0);
    let made: Vec<Made> = std::thread::scope(|scope| {
        let start = |thread: u32| {
            let (memory, ready) = (&memory, &ready);
            scope.spawn(move || {
                let mut port = memory.port().expect("a port is free");
                wait_for(ready, ports as usize);
                make(&mut port, thread, UPDATES / ports, components)
            })
        };
        let started: Vec<_> = (0..ports).map(start).collect();
        started.into_iter().map(|thread| thread.join().expect("it ends")).collect()
    });
    let sorted = |times: fn(&Made) -> &[u32]| {
        let mut times: Vec<u32> = made.iter().flat_map(times).copied().collect();
        times.sort_unstable();
        times
    };
    let (times, changes) = (sorted(|made| made.times.kept()), sorted(|made| &made.changes));
    let slowest = times.len() - 1;
    let [rare, half, slowest] =
        [Some(times[slowest - slowest / 10_000]), changes.get(changes.len() / 2).copied(), Some(times[slowest])]
            .map(|time| time.map(f64::from));
    // Those in the last epoch, which didn't end, aren't counted.
    let epoch = made.iter().map(|made| made.entered.epoch).max().unwrap_or(0);
    let before =
        |Entered { epoch: last, before }: &Entered| if *last == epoch { *before } else { 2 * (UPDATES / ports) };
    let updates = f64::from(made.iter().map(|made| before(&made.entered)).sum::<u32>()) / epoch as f64;
    let parts: Vec<Parts> = made.into_iter().map(|made| made.parts).collect();
    let mean = Sample::of(&parts, &[], |times| vec![times.iter().sum::<f64>() / times.len() as f64 / f64::from(CALLS)]);
    [mean.values.first().copied(), rare, half, slowest, Some(updates)]
}

// What a thread made: its updates in parts and one by one, and the times of those of the latter that ended in a later
// epoch than the one before.
struct Made {
    parts: Parts,
    times: Times,
    changes: Vec<u32>,
    entered: Entered,
}

// The epoch of a thread's last update, and how many it had made before it entered that epoch.
struct Entered {
    epoch: u64,
    before: u32,
}

impl Entered {
    // Notes the epoch of an update, and returns whether it is a later one.
    fn note(&mut self, epoch: u64, call: u32) -> bool {
        let is_later = epoch != self.epoch;
        if is_later {
            *self = Entered { epoch, before: call };
        }
        is_later
    }
}

fn make(port: &mut Port, thread: u32, updates: u32, components: usize) -> Made {
    let entered = Entered { epoch: 0, before: 0 };
    let mut made = Made { parts: Parts::new(), times: Times::new(), changes: Vec::new(), entered };
    for first in (0..updates).step_by(CALLS as usize) {
        let part = || {
            for call in first..first + CALLS {
                made.entered.note(update(port, thread + call, components), call);
            }
        };
        made.parts.time(part, |_| true);
    }
    for call in updates..2 * updates {
        let (epoch, time) = made.times.time(|| update(port, thread + call, components));
        if made.entered.note(epoch, call) {
            made.changes.extend(time);
        }
    }
    made
}

/// Makes an update of the components in turns. Returns its epoch.
pub fn update(port: &mut Port, call: u32, components: usize) -> u64 {
    match port.retry(|port| port.update(call % components as u32, u64::from(call))).expect("it is made") {
        Updated::Applied { stamp } | Updated::Lost { by: stamp } => stamp.epoch(),
    }
}

#[cfg(test)]
mod tests {
    use super::*;

    #[test]
    fn an_epoch_has_a_third_as_many_updates_as_its_pool_words() {
        let [mean, rare, half, slowest, updates] = sample(64, 1).map(|value| value.expect("it opens"));
        assert!(mean > 0.0 && mean <= slowest && rare <= slowest, "{mean} {rare} {slowest}");
        assert!(mean < half && half <= slowest, "{mean} {half} {slowest}");
        assert!((5_000.0..5_500.0).contains(&updates), "{updates}");
    }

    #[test]
    fn a_memory_that_does_not_open_has_no_sample() {
        assert_eq!(sample(64, 256), [None; 5]);
        assert_eq!(cell(Vec::new()), "-");
        assert_eq!((grouped(64), grouped(1_024)), ("64".to_string(), "1,024".to_string()));
    }
}
