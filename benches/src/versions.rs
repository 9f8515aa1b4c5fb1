//! Versioned components: each is a list of values with stamps of one clock, from which a scan takes those of its own
//! stamp. The algorithm is that of Wei, Ben-David, Blelloch, Fatourou, Ruppert and Sun, Constant-time snapshots with
//! applications to concurrent data structures, 2021. No version is freed, so those of a thread are used up.

use crate::objects::Face;
use std::sync::atomic::{AtomicU32, AtomicU64, Ordering::SeqCst};
use std::sync::Arc;

/// How many versions each thread may make.
const VERSIONS: usize = 400_000;

/// A stamp that is not set yet.
const UNSET: u64 = 0;

/// A value, the clock when it was set, and the version before it. The first version of a component has no other before it.
struct Version {
    value: AtomicU64,
    stamp: AtomicU64,
    before: AtomicU32,
}

impl Version {
    fn new(stamp: u64) -> Version {
        Version { value: AtomicU64::new(0), stamp: AtomicU64::new(stamp), before: AtomicU32::new(0) }
    }
}

/// The words that all threads share.
struct Shared {
    clock: AtomicU64,
    heads: Vec<AtomicU32>,
    versions: Vec<Version>,
}

impl Shared {
    fn version(&self, at: u32) -> &Version {
        &self.versions[at as usize]
    }

    // The newest version of a component, whose stamp is set.
    #[inline]
    fn newest(&self, component: u32) -> u32 {
        let at = self.heads[component as usize].load(SeqCst);
        self.set_stamp(at);
        at
    }

    #[inline]
    fn set_stamp(&self, at: u32) {
        let stamp = &self.version(at).stamp;
        if stamp.load(SeqCst) == UNSET {
            let _set = stamp.compare_exchange(UNSET, self.clock.load(SeqCst), SeqCst, SeqCst);
        }
    }
}

/// The face of a thread, with the versions that it may still make.
pub struct Versions {
    shared: Arc<Shared>,
    next: u32,
    end: u32,
}

/// The faces of a new object of m components.
pub fn open(m: usize, threads: usize) -> Vec<Versions> {
    let first = (0..m).map(|_| Version::new(1));
    let later = (0..threads * VERSIONS).map(|_| Version::new(UNSET));
    let shared = Arc::new(Shared {
        clock: AtomicU64::new(1),
        heads: (0..m as u32).map(AtomicU32::new).collect(),
        versions: first.chain(later).collect(),
    });
    let from = |thread: usize| (m + thread * VERSIONS) as u32;
    (0..threads)
        .map(|thread| Versions { shared: shared.clone(), next: from(thread), end: from(thread + 1) })
        .collect()
}

impl Versions {
    // Sets a component to what the function makes of its value. Where another thread sets it first, this one counts as
    // set just before that.
    #[inline]
    fn change(&mut self, component: u32, value: impl FnOnce(u64) -> u64) -> bool {
        if self.next == self.end {
            return false;
        }
        let before = self.shared.newest(component);
        let made = self.shared.version(self.next);
        made.value.store(value(self.shared.version(before).value.load(SeqCst)), SeqCst);
        made.before.store(before, SeqCst);
        let head = &self.shared.heads[component as usize];
        if head.compare_exchange(before, self.next, SeqCst, SeqCst).is_ok() {
            self.shared.set_stamp(self.next);
            self.next += 1;
        } else {
            self.shared.newest(component);
        }
        true
    }
}

impl Face for Versions {
    fn update(&mut self, component: u32, value: u64) -> bool {
        self.change(component, |_| value)
    }
    fn add_one(&mut self, component: u32) -> bool {
        self.change(component, |seen| seen + 1)
    }
    fn read(&mut self, component: u32) -> u64 {
        self.shared.version(self.shared.newest(component)).value.load(SeqCst)
    }
    fn scan(&mut self, which: &[u32], into: &mut [u64]) -> bool {
        let clock = &self.shared.clock;
        let now = clock.load(SeqCst);
        let _passed = clock.compare_exchange(now, now + 1, SeqCst, SeqCst);
        for (value, &component) in into.iter_mut().zip(which) {
            let mut version = self.shared.version(self.shared.newest(component));
            while version.stamp.load(SeqCst) > now {
                version = self.shared.version(version.before.load(SeqCst));
            }
            *value = version.value.load(SeqCst);
        }
        true
    }
}

#[cfg(test)]
mod tests {
    use super::*;

    #[test]
    fn scans_show_what_was_set_before() {
        let mut faces = open(3, 2);
        let mut into = [7; 2];
        assert!(faces[0].scan(&[0, 2], &mut into));
        assert_eq!(into, [0, 0]);
        assert!(faces[0].update(0, 11) && faces[1].update(2, 13) && faces[1].add_one(0));
        assert!(faces[0].scan(&[2, 0], &mut into));
        assert_eq!(into, [13, 12]);
        assert_eq!((faces[1].read(0), faces[1].read(1)), (12, 0));
    }

    #[test]
    fn versions_are_used_up() {
        let mut faces = open(1, 1);
        let made = (0..).take_while(|&value| faces[0].update(0, value)).count();
        assert_eq!(made, VERSIONS);
        assert_eq!(faces[0].read(0), VERSIONS as u64 - 1);
    }
}
