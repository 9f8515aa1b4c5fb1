//! A long run of many threads over a memory whose arenas are so small that its epoch changes all the time. Each thread
//! sets two components of its own to 1, 2, 3 and so on, the first one before the second, and looks at those of others.
//!
//!     soak [THREADS [SECONDS [POOL_WORDS [HISTORY]]]]
//!
//! It sees that each update of a component with one writer is applied, that a thread reads what it wrote, that no
//! number that a thread sees of a component falls, that no scan shows a second component beside a first one of
//! another moment, that the stamps of a component are distinct, and that the memory closes with the last numbers.
//! With a fourth word it writes the calls of a first part, with the times at which they began and ended, to that file;
//! `tests/judge_times.py` judges them. The last two lines are counts, and the status is 1 when there was a fault.

use partial_door::{Memory, Port, Refused, Stamp, Updated};
use std::error::Error;
use std::fmt::Write as _;
use std::sync::atomic::{AtomicBool, Ordering};
use std::sync::Barrier;
use std::thread;
use std::time::{Duration, Instant};

// How many turns of each thread are written to the history.
const RECORDED: u64 = 400;
const LIST_WORDS: u32 = 64;
// Of how many threads a scan has the components.
const SCANNED: usize = 4;

/// What a thread has counted.
#[derive(Default)]
struct Counts {
    updates: u64,
    scans: u64,
    reads: u64,
    borrowed: u64,
    overtaken: u64,
    epochs: u64,
    faults: Vec<String>,
}

impl Counts {
    fn add(&mut self, other: Counts) {
        self.updates += other.updates;
        self.scans += other.scans;
        self.reads += other.reads;
        self.borrowed += other.borrowed;
        self.overtaken += other.overtaken;
        self.epochs = self.epochs.max(other.epochs);
        self.faults.extend(other.faults);
    }
}

/// One thread: its port, the numbers that it last saw of each component, and what it has counted.
struct Thread {
    port: Port,
    number: u32,
    threads: u32,
    chance: u64,
    seen: Vec<u64>,
    stamps: Vec<Option<Stamp>>,
    counts: Counts,
    begin: Instant,
    history: Option<String>,
}

impl Thread {
    fn new(port: Port, number: u32, threads: u32, begin: Instant, recorded: bool) -> Thread {
        let components = 2 * threads as usize;
        Thread {
            port,
            number,
            threads,
            chance: 0x9e37_79b9_7f4a_7c15 ^ (u64::from(number) << 32 | 1),
            seen: vec![0; components],
            stamps: vec![None; components],
            counts: Counts::default(),
            begin,
            history: recorded.then(String::new),
        }
    }

    /// The next number of a row that looks like chance, below a bound.
    fn below(&mut self, bound: u32) -> u32 {
        self.chance ^= self.chance << 13;
        self.chance ^= self.chance >> 7;
        self.chance ^= self.chance << 17;
        ((self.chance >> 32) % u64::from(bound)) as u32
    }

    fn fault(&mut self, text: String) {
        if self.counts.faults.len() < 10 {
            self.counts.faults.push(format!("thread {}: {text}", self.number));
        }
    }

    /// Makes a call, and tries again when it was overtaken by changes of epoch. Writes it to the history.
    fn call<T>(
        &mut self,
        mut made: impl FnMut(&mut Port) -> Result<T, Refused>,
        text: impl Fn(&T) -> String,
    ) -> Option<T> {
        loop {
            let began = self.begin.elapsed().as_nanos();
            let answer = made(&mut self.port);
            let ended = self.begin.elapsed().as_nanos();
            match answer {
                Ok(answer) => {
                    if let Some(history) = &mut self.history {
                        let line = writeln!(history, "call {} {began} {ended} {}", self.number, text(&answer));
                        line.expect("a string takes a line");
                    }
                    return Some(answer);
                }
                Err(Refused::Overtaken) => self.counts.overtaken += 1,
                Err(cause) => {
                    self.fault(format!("refused: {cause}"));
                    return None;
                }
            }
        }
    }

    /// Sees that the number of a component hasn't fallen, and that another number has another stamp.
    fn sees(&mut self, component: u32, value: u64, stamp: Option<Stamp>) {
        let at = component as usize;
        if value < self.seen[at] {
            self.fault(format!("component {component} falls from {} to {value}", self.seen[at]));
        }
        if stamp.is_some() && stamp == self.stamps[at] && value != self.seen[at] {
            self.fault(format!("component {component} has one stamp for {} and {value}", self.seen[at]));
        }
        self.seen[at] = value;
        self.stamps[at] = stamp;
    }

    /// Sets a component of this thread.
    fn set(&mut self, component: u32, value: u64) {
        let answer = self.call(|port| port.update(component, value), |_| format!("update {component} {value}"));
        self.counts.updates += 1;
        match answer {
            Some(Updated::Applied { stamp }) => {
                self.counts.epochs = self.counts.epochs.max(stamp.epoch());
                self.sees(component, value, Some(stamp));
            }
            Some(Updated::Lost { .. }) => self.fault(format!("component {component} has another writer")),
            None => {}
        }
    }

    fn read(&mut self, component: u32) {
        let answer = self.call(|port| port.read(component), |seen| format!("read {component} {}", seen.value));
        self.counts.reads += 1;
        if let Some(seen) = answer {
            self.sees(component, seen.value, Some(seen.stamp));
        }
    }

    /// Scans the components of some threads, and sees that each pair is that of one moment.
    fn scan(&mut self, threads: [u32; SCANNED]) {
        let mut which = [0; 2 * SCANNED];
        for (pair, thread) in which.chunks_mut(2).zip(threads) {
            pair.copy_from_slice(&[2 * thread + 1, 2 * thread]);
        }
        let mut values = [0; 2 * SCANNED];
        let answer = self.call(
            |port| port.scan(&which, &mut values).map(|scanned| (scanned, values)),
            |(_, values)| {
                let pairs: Vec<_> = which.iter().zip(values).map(|(j, value)| format!("{j}:{value}")).collect();
                format!("scan {}", pairs.join(" "))
            },
        );
        self.counts.scans += 1;
        let Some((scanned, values)) = answer else { return };
        self.counts.borrowed += u64::from(scanned.borrowed.is_some());
        for (component, value) in which.into_iter().zip(values) {
            self.sees(component, value, None);
        }
        for (pair, thread) in values.chunks(2).zip(threads) {
            let [second, first] = [pair[0], pair[1]];
            if second > first || first > second + 1 {
                self.fault(format!("{first} and {second} of thread {thread} are of two moments"));
            }
        }
    }

    fn turn(&mut self, value: u64) {
        let own = 2 * self.number;
        self.set(own, value);
        self.set(own + 1, value);
        let mine = own + self.below(2);
        self.read(mine);
        if self.seen[own as usize] != value || self.seen[own as usize + 1] != value {
            self.fault(format!("it doesn't read its own {value}"));
        }
        let scanned = [(); SCANNED].map(|()| self.below(self.threads));
        self.scan(scanned);
        let other = self.below(2 * self.threads);
        self.read(other);
    }

    /// Makes the recorded turns, waits for the others, and goes on until it is to stop. Returns the last number.
    fn run(&mut self, recorded: &Barrier, stop: &AtomicBool) -> u64 {
        let mut value = 0;
        recorded.wait();
        while self.history.is_some() && value < RECORDED {
            value += 1;
            self.turn(value);
        }
        let history = self.history.take();
        recorded.wait();
        while !stop.load(Ordering::Relaxed) {
            value += 1;
            self.turn(value);
        }
        self.history = history;
        value
    }
}

/// Runs the threads, and returns what they counted, their histories, and their last numbers.
fn run(memory: &Memory, threads: u32, time: Duration, recorded: bool) -> (Counts, String, Vec<u64>) {
    let (barrier, stop, begin) = (Barrier::new(threads as usize), AtomicBool::new(false), Instant::now());
    let (mut counts, mut history, mut last) = (Counts::default(), String::new(), Vec::new());
    thread::scope(|scope| {
        let started: Vec<_> = (0..threads)
            .map(|number| {
                let port = memory.port().expect("there is a port for each thread");
                let mut own = Thread::new(port, number, threads, begin, recorded);
                let (barrier, stop) = (&barrier, &stop);
                scope.spawn(move || {
                    let value = own.run(barrier, stop);
                    (own.counts, own.history, value)
                })
            })
            .collect();
        thread::sleep(time);
        stop.store(true, Ordering::Relaxed);
        for thread in started {
            let (own, calls, value) = thread.join().expect("no thread panics");
            counts.add(own);
            history.push_str(&calls.unwrap_or_default());
            last.extend([value, value]);
        }
    });
    (counts, history, last)
}

fn main() -> Result<(), Box<dyn Error + Send + Sync>> {
    let words: Vec<String> = std::env::args().skip(1).collect();
    let threads = words.first().map_or(Ok(64), |word| word.parse())?;
    if !(SCANNED as u32..=255).contains(&threads) {
        return Err("there are 4 to 255 threads".into());
    }
    let seconds = words.get(1).map_or(Ok(5.0), |word| word.parse())?;
    let pool_words = words.get(2).map_or(Ok(512), |word| word.parse())?;
    let memory = Memory::builder()
        .ports(threads)
        .list_words(LIST_WORDS)
        .pool_words(pool_words)
        .open(&vec![0; 2 * threads as usize])?;
    let began = Instant::now();
    let (mut counts, history, last) = run(&memory, threads, Duration::from_secs_f64(seconds), words.len() > 3);
    let took = began.elapsed().as_secs_f64();
    if memory.close()? != last {
        counts.faults.push("the memory closes with other numbers than the last ones".to_string());
    }
    if let Some(path) = words.get(3) {
        std::fs::write(path, history)?;
    }
    for fault in &counts.faults {
        println!("{fault}");
    }
    println!(
        "{threads} threads, {took:.1} s: {} updates, {} scans ({} helped), {} reads, {} epochs ({:.0} a second)",
        counts.updates,
        counts.scans,
        counts.borrowed,
        counts.reads,
        counts.epochs,
        counts.epochs as f64 / took
    );
    let faults = counts.faults.len();
    println!("{} overtaken, {faults} faults", counts.overtaken);
    std::process::exit(i32::from(!counts.faults.is_empty()))
}
