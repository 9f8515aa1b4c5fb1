//! On how many processors a thread runs.

/// A set of processors, as Linux takes it.
type Set = [u64; 16];

extern "C" {
    fn sched_getaffinity(thread: i32, size: usize, set: *mut Set) -> i32;
    fn sched_setaffinity(thread: i32, size: usize, set: *const Set) -> i32;
}

/// Lets the thread that calls this run only on the first so many of those on which it may run.
pub fn stay_on(count: usize) {
    let mut set: Set = [0; 16];
    let size = std::mem::size_of::<Set>();
    // SAFETY: 0 is the thread that calls, and the set is as large as is said.
    assert!(unsafe { sched_getaffinity(0, size, &mut set) } >= 0, "Linux gives the processors of a thread");
    let mut left = count;
    for word in &mut set {
        for bit in 0..64 {
            if *word & 1 << bit != 0 {
                match left {
                    0 => *word &= !(1 << bit),
                    _ => left -= 1,
                }
            }
        }
    }
    // SAFETY: as before.
    assert!(unsafe { sched_setaffinity(0, size, &set) } == 0, "a thread may take fewer processors");
}

#[cfg(test)]
mod tests {
    use super::*;

    #[test]
    fn a_thread_stays_on_so_many_processors() {
        let count = || std::thread::available_parallelism().expect("it is known").get();
        let (all, before) = (count(), count());
        let one = std::thread::spawn(move || {
            stay_on(1);
            count()
        });
        assert_eq!(one.join().expect("it ends"), 1);
        assert_eq!((all, count()), (before, before));
    }
}
