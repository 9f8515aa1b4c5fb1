//! The parts of a measured loop. Those in which a thread had to give its processor away are left out.

use std::fs::File;
use std::os::unix::fs::FileExt;
use std::time::Instant;

/// Finds whether a thread had to give its processor away: by its involuntary context switches. They are read only
/// where the time that it waited for a processor has grown, since that is read faster. A thread that a lock has put
/// to sleep gave its processor away by itself, so what that costs is counted as part of the call.
struct Watch {
    delays: Option<File>,
    status: Option<File>,
    delay: Option<u64>,
    switches: Option<u64>,
}

impl Watch {
    fn new() -> Watch {
        let mut watch = Watch {
            delays: File::open("/proc/thread-self/schedstat").ok(),
            status: File::open("/proc/thread-self/status").ok(),
            delay: None,
            switches: None,
        };
        watch.has_waited();
        watch
    }

    /// Whether the thread had to give its processor away since this was asked before.
    fn has_waited(&mut self) -> bool {
        let delay = number(&self.delays, delay_in);
        if delay.is_some() && delay == self.delay {
            return false;
        }
        let switches = number(&self.status, switches_in);
        let waited = switches != self.switches;
        self.delay = delay;
        self.switches = switches;
        waited
    }
}

// The nanoseconds for which a thread waited for a processor.
fn delay_in(schedstat: &str) -> Option<&str> {
    schedstat.split_whitespace().nth(1)
}

fn switches_in(status: &str) -> Option<&str> {
    let after = status.split("nonvoluntary_ctxt_switches:").nth(1)?;
    after.split_whitespace().next()
}

// A number in an open file, which is read anew from its front.
fn number(file: &Option<File>, field: fn(&str) -> Option<&str>) -> Option<u64> {
    let mut text = [0; 4096];
    let length = file.as_ref()?.read_at(&mut text, 0).ok()?;
    field(std::str::from_utf8(&text[..length]).ok()?)?.parse().ok()
}

struct Part {
    from: Instant,
    to: Instant,
    waited: bool,
    counts: bool,
}

impl Part {
    fn overlaps(&self, other: &Part) -> bool {
        self.from < other.to && other.from < self.to
    }

    fn nanoseconds(&self) -> f64 {
        self.to.duration_since(self.from).as_nanos() as f64
    }
}

/// The parts that one thread has made.
pub struct Parts {
    watch: Watch,
    made: Vec<Part>,
}

impl Parts {
    /// None yet, of the thread that calls this.
    pub fn new() -> Parts {
        Parts { watch: Watch::new(), made: Vec::new() }
    }

    /// The same, where each part counts, also when the thread had to give its processor away.
    pub fn shared() -> Parts {
        Parts { watch: Watch { delays: None, status: None, delay: None, switches: None }, made: Vec::new() }
    }

    /// Times a part, which counts only where `counts` is true after it, of what it gave.
    pub fn time<T>(&mut self, part: impl FnOnce() -> T, counts: impl FnOnce(&T) -> bool) -> T {
        let from = Instant::now();
        let answer = part();
        let to = Instant::now();
        let waited = self.watch.has_waited();
        self.made.push(Part { from, to, waited, counts: counts(&answer) });
        answer
    }

    /// Times a part, and keeps it only where `counts` is true of what it gave. Whether the thread had to give its
    /// processor away is asked only then, by system calls, and of all that it did since it was asked before.
    pub fn find<T>(&mut self, part: impl FnOnce() -> T, counts: impl FnOnce(&T) -> bool) -> T {
        let from = Instant::now();
        let answer = part();
        let to = Instant::now();
        if counts(&answer) {
            let waited = self.watch.has_waited();
            self.made.push(Part { from, to, waited, counts: true });
        }
        answer
    }
}

/// The times of single calls of one thread, in nanoseconds.
pub struct Times {
    watch: Watch,
    kept: Vec<u32>,
}

// A call that takes less did not give its processor away.
const SLOW: u32 = 1_000;

impl Times {
    /// None yet, of the thread that calls this.
    pub fn new() -> Times {
        Times { watch: Watch::new(), kept: Vec::new() }
    }

    /// Times a call, and returns its answer and its time. It is left out, and has none, when the thread had to give its
    /// processor away, which is asked of slow calls alone.
    pub fn time<T>(&mut self, call: impl FnOnce() -> T) -> (T, Option<u32>) {
        let from = Instant::now();
        let answer = call();
        let time = u32::try_from(from.elapsed().as_nanos()).unwrap_or(u32::MAX);
        let counts = time < SLOW || !self.watch.has_waited();
        let time = counts.then_some(time);
        self.kept.extend(time);
        (answer, time)
    }

    /// The times that were not left out.
    pub fn kept(&self) -> &[u32] {
        &self.kept
    }
}

/// What a bench of one object gave in one repetition: its values, none where there is no part, and how many
/// parts they are of.
pub struct Sample {
    pub values: Vec<f64>,
    pub kept: usize,
    pub left_out: usize,
}

impl Sample {
    /// Of the parts of these threads, beside those of others: what the function makes of the nanoseconds of those
    /// that count and in whose time no thread of either had to wait for a processor.
    pub fn of(measured: &[Parts], beside: &[Parts], values: impl Fn(Vec<f64>) -> Vec<f64>) -> Sample {
        let threads = measured.iter().chain(beside);
        let waits: Vec<&Part> = threads.flat_map(|parts| &parts.made).filter(|part| part.waited).collect();
        let made = || measured.iter().flat_map(|parts| &parts.made);
        let times: Vec<f64> = made()
            .filter(|part| part.counts && !waits.iter().any(|wait| wait.overlaps(part)))
            .map(Part::nanoseconds)
            .collect();
        let kept = times.len();
        let values = if kept == 0 { Vec::new() } else { values(times) };
        Sample { values, kept, left_out: made().count() - kept }
    }

    /// Of a bench that the object isn't in.
    pub fn none() -> Sample {
        Sample { values: Vec::new(), kept: 0, left_out: 0 }
    }
}

#[cfg(test)]
mod tests {
    use super::*;
    use std::time::Duration;

    // From and to which nanosecond after the beginning each part was, whether the thread waited, and whether it counts.
    fn parts(front: Instant, made: &[(u64, u64, bool, bool)]) -> Parts {
        let at = |nanoseconds| front + Duration::from_nanos(nanoseconds);
        let part = |&(from, to, waited, counts)| Part { from: at(from), to: at(to), waited, counts };
        Parts { made: made.iter().map(part).collect(), ..Parts::new() }
    }

    #[test]
    fn numbers_are_found() {
        assert_eq!(delay_in("304 99130 1\n"), Some("99130"));
        let status = "voluntary_ctxt_switches:\t12\nnonvoluntary_ctxt_switches:\t7\n";
        assert_eq!(switches_in(status), Some("7"));
        assert_eq!(delay_in(""), None);
        assert_eq!(switches_in("voluntary_ctxt_switches:\t12\n"), None);
    }

    #[test]
    fn parts_that_waited_or_do_not_count_are_left_out() {
        let front = Instant::now();
        let made = parts(front, &[(0, 10, false, true), (20, 50, true, true), (60, 100, false, false)]);
        let sample = Sample::of(&[made], &[], |times| times);
        assert_eq!((sample.values, sample.kept, sample.left_out), (vec![10.0], 1, 2));
        let none = Sample::of(&[parts(front, &[(0, 10, true, true)])], &[], |times| vec![times[0]]);
        assert_eq!((none.values, none.kept, none.left_out), (Vec::new(), 0, 1));
    }

    #[test]
    fn parts_that_count_are_found_among_others() {
        let mut made = Parts { watch: Watch { delays: None, status: None, delay: None, switches: None }, made: Vec::new() };
        let answers = [1, 2, 3, 4].map(|answer| made.find(|| answer, |&answer| answer % 2 == 0));
        assert_eq!(answers, [1, 2, 3, 4]);
        let sample = Sample::of(&[made], &[], |times| vec![times.len() as f64]);
        assert_eq!((sample.values, sample.kept, sample.left_out), (vec![2.0], 2, 0));
    }

    #[test]
    fn a_wait_leaves_out_the_parts_beside_it() {
        let front = Instant::now();
        let measured = [(0, 10), (10, 20), (20, 30), (30, 40)].map(|(from, to)| (from, to, false, true));
        let beside = [(0, 15, false, true), (15, 25, true, true)];
        let sample = Sample::of(&[parts(front, &measured)], &[parts(front, &beside)], |times| times);
        assert_eq!((sample.kept, sample.left_out), (2, 2));
    }
}
