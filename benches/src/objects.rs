//! The objects that are compared. Each thread has a face of its own.

use crate::called::Called;
use crate::{raw, versions};
use partial_door::opening::{self, Sizes};
use partial_door::{Key, Layout, Memory, Port};
use std::sync::atomic::{AtomicU64, Ordering::SeqCst};
use std::sync::{Arc, Mutex, RwLock};

/// What a thread does to an object. An update and a scan say whether they were made: a memory's pool or its slots
/// may be used up.
pub trait Face: Send {
    fn update(&mut self, component: u32, value: u64) -> bool;
    /// Adds one to a component: in a memory by a read and a conditional update, which isn't tried again.
    fn add_one(&mut self, component: u32) -> bool;
    fn read(&mut self, component: u32) -> u64;
    fn scan(&mut self, which: &[u32], into: &mut [u64]) -> bool;
}

/// A face on cache lines of its own, since a call may write in it.
#[repr(align(128))]
struct Apart<F>(F);

impl<F: Face> Face for Apart<F> {
    fn update(&mut self, component: u32, value: u64) -> bool {
        self.0.update(component, value)
    }
    fn add_one(&mut self, component: u32) -> bool {
        self.0.add_one(component)
    }
    fn read(&mut self, component: u32) -> u64 {
        self.0.read(component)
    }
    fn scan(&mut self, which: &[u32], into: &mut [u64]) -> bool {
        self.0.scan(which, into)
    }
}

/// The face of a kind of ports, whose calls have these names and may be refused.
macro_rules! face_of {
    ($port:ty) => {
        impl Face for $port {
            fn update(&mut self, component: u32, value: u64) -> bool {
                <$port>::update(self, component, value).is_ok()
            }
            fn add_one(&mut self, component: u32) -> bool {
                let seen = <$port>::read(self, component).expect("the component is there");
                self.update_if(component, seen.stamp, seen.value + 1).is_ok()
            }
            fn read(&mut self, component: u32) -> u64 {
                <$port>::read(self, component).expect("the component is there").value
            }
            fn scan(&mut self, which: &[u32], into: &mut [u64]) -> bool {
                <$port>::scan(self, which, into).is_ok()
            }
        }
    };
}

// The proved long-lived memory, a proved single opening, and its algorithm with nothing proved.
face_of!(Port);
face_of!(opening::Port);
face_of!(raw::Port);

/// The keys of four components.
type Four = (Key<u64>, Key<u64>, Key<u64>, Key<u64>);

/// A port of the long-lived memory, called by keys. A program has the keys of a snapshot at hand, so here are
/// those of each component and the three after it.
struct Keyed {
    port: Port,
    keys: Vec<Key<u64>>,
    fours: Vec<Four>,
}

impl Keyed {
    fn new(port: Port, keys: Vec<Key<u64>>) -> Keyed {
        let key = |at: usize| keys[at % keys.len()];
        let fours = (0..keys.len()).map(|at| (key(at), key(at + 1), key(at + 2), key(at + 3))).collect();
        Keyed { port, keys, fours }
    }
    fn key(&self, component: u32) -> Key<u64> {
        self.keys[component as usize]
    }
}

impl Face for Keyed {
    fn update(&mut self, component: u32, value: u64) -> bool {
        self.port.set(self.key(component), value).is_ok()
    }
    fn add_one(&mut self, component: u32) -> bool {
        let key = self.key(component);
        let seen = self.port.get_stamped(key).expect("the component is there");
        self.port.set_if(key, seen.stamp, seen.value + 1).is_ok()
    }
    fn read(&mut self, component: u32) -> u64 {
        self.port.get(self.key(component)).expect("the component is there")
    }
    fn scan(&mut self, which: &[u32], into: &mut [u64]) -> bool {
        assert_eq!(which.len(), 4, "the row scans 4 components, one after the other");
        let made = self.port.snapshot(self.fours[which[0] as usize]);
        made.map(|(a, b, c, d)| into.copy_from_slice(&[a, b, c, d])).is_ok()
    }
}

#[derive(Clone)]
pub struct Locked(Arc<Mutex<Vec<u64>>>);

impl Face for Locked {
    fn update(&mut self, component: u32, value: u64) -> bool {
        self.0.lock().unwrap()[component as usize] = value;
        true
    }
    fn add_one(&mut self, component: u32) -> bool {
        self.0.lock().unwrap()[component as usize] += 1;
        true
    }
    fn read(&mut self, component: u32) -> u64 {
        self.0.lock().unwrap()[component as usize]
    }
    fn scan(&mut self, which: &[u32], into: &mut [u64]) -> bool {
        let values = self.0.lock().unwrap();
        for (value, &component) in into.iter_mut().zip(which) {
            *value = values[component as usize];
        }
        true
    }
}

#[derive(Clone)]
pub struct Shared(Arc<RwLock<Vec<u64>>>);

impl Face for Shared {
    fn update(&mut self, component: u32, value: u64) -> bool {
        self.0.write().unwrap()[component as usize] = value;
        true
    }
    fn add_one(&mut self, component: u32) -> bool {
        self.0.write().unwrap()[component as usize] += 1;
        true
    }
    fn read(&mut self, component: u32) -> u64 {
        self.0.read().unwrap()[component as usize]
    }
    fn scan(&mut self, which: &[u32], into: &mut [u64]) -> bool {
        let values = self.0.read().unwrap();
        for (value, &component) in into.iter_mut().zip(which) {
            *value = values[component as usize];
        }
        true
    }
}

/// A seqlock: one version for all values, odd while one is written.
#[derive(Clone)]
pub struct Seqlock(Arc<(AtomicU64, Vec<AtomicU64>)>);

impl Seqlock {
    // Changes a value while the version is odd.
    #[inline]
    fn change(&self, component: u32, change: impl Fn(&AtomicU64)) -> bool {
        let (version, values) = &*self.0;
        loop {
            let seen = version.load(SeqCst);
            let even = seen % 2 == 0;
            if even && version.compare_exchange(seen, seen + 1, SeqCst, SeqCst).is_ok() {
                change(&values[component as usize]);
                version.store(seen + 2, SeqCst);
                return true;
            }
            std::hint::spin_loop();
        }
    }
}

impl Face for Seqlock {
    fn update(&mut self, component: u32, value: u64) -> bool {
        self.change(component, |word| word.store(value, SeqCst))
    }
    fn add_one(&mut self, component: u32) -> bool {
        self.change(component, |word| word.store(word.load(SeqCst) + 1, SeqCst))
    }
    fn read(&mut self, component: u32) -> u64 {
        self.0 .1[component as usize].load(SeqCst)
    }
    fn scan(&mut self, which: &[u32], into: &mut [u64]) -> bool {
        let (version, values) = &*self.0;
        loop {
            let before = version.load(SeqCst);
            for (value, &component) in into.iter_mut().zip(which) {
                *value = values[component as usize].load(SeqCst);
            }
            if before % 2 == 0 && version.load(SeqCst) == before {
                return true;
            }
            std::hint::spin_loop();
        }
    }
}

/// Values beside versions, scanned by collects until two are equal. A value has 32 bits here.
#[derive(Clone)]
pub struct Collects(Arc<Vec<AtomicU64>>);

impl Collects {
    // Changes a value, and with it its version.
    #[inline]
    fn change(&self, component: u32, change: impl Fn(u64) -> u64) -> bool {
        let word = &self.0[component as usize];
        let mut seen = word.load(SeqCst);
        loop {
            let next = (seen >> 32).wrapping_add(1) << 32 | change(seen) & 0xffff_ffff;
            match word.compare_exchange(seen, next, SeqCst, SeqCst) {
                Ok(_) => return true,
                Err(found) => seen = found,
            }
        }
    }
}

impl Face for Collects {
    fn update(&mut self, component: u32, value: u64) -> bool {
        self.change(component, |_| value)
    }
    fn add_one(&mut self, component: u32) -> bool {
        self.change(component, |seen| seen.wrapping_add(1))
    }
    fn read(&mut self, component: u32) -> u64 {
        self.0[component as usize].load(SeqCst) & 0xffff_ffff
    }
    fn scan(&mut self, which: &[u32], into: &mut [u64]) -> bool {
        let load = |component: u32| self.0[component as usize].load(SeqCst);
        loop {
            for (value, &component) in into.iter_mut().zip(which) {
                *value = load(component);
            }
            if into.iter().zip(which).all(|(&seen, &component)| seen == load(component)) {
                break;
            }
        }
        into.iter_mut().for_each(|value| *value &= 0xffff_ffff);
        true
    }
}

/// Plain atomics: a scan isn't one of a moment, so this is a floor and no rival.
#[derive(Clone)]
pub struct Plain(Arc<Vec<AtomicU64>>);

impl Face for Plain {
    fn update(&mut self, component: u32, value: u64) -> bool {
        self.0[component as usize].store(value, SeqCst);
        true
    }
    fn add_one(&mut self, component: u32) -> bool {
        self.0[component as usize].fetch_add(1, SeqCst);
        true
    }
    fn read(&mut self, component: u32) -> u64 {
        self.0[component as usize].load(SeqCst)
    }
    fn scan(&mut self, which: &[u32], into: &mut [u64]) -> bool {
        for (value, &component) in into.iter_mut().zip(which) {
            *value = self.0[component as usize].load(SeqCst);
        }
        true
    }
}

pub const NAMES: [&str; 10] =
    ["memory", "opening", "raw", "called", "mutex", "rwlock", "seqlock", "versions", "collects", "plain"];

/// The greatest sizes.
pub const SIZES: Sizes = Sizes { slots: 65_536, list_words: 65_536, pool_words: 4_194_304 };

fn words(m: usize) -> Vec<AtomicU64> {
    (0..m).map(|_| AtomicU64::new(0)).collect()
}

/// The sizes of an opening without room for a list of vacated slots.
pub const NO_LISTS: Sizes = Sizes { list_words: 1, ..SIZES };

/// The faces of an object, and what keeps a single opening there.
pub type Faces = (Option<opening::Memory>, Vec<Box<dyn Face>>);

/// The faces of a new object of m components.
pub fn faces(name: &str, m: usize, threads: usize) -> Faces {
    faces_of(name, m, threads, SIZES)
}

/// The same, where an opening has these sizes.
pub fn faces_of(name: &str, m: usize, threads: usize, sizes: Sizes) -> Faces {
    fn boxed<F: Face + 'static>(face: F) -> Box<dyn Face> {
        Box::new(Apart(face))
    }
    fn all<F: Face + Clone + 'static>(face: F, threads: usize) -> Faces {
        (None, (0..threads).map(|_| boxed(face.clone())).collect())
    }
    let zeros = vec![0; m];
    match name {
        "memory" => {
            let memory = Memory::builder().ports(threads as u32).open(&zeros).expect("it opens");
            (None, (0..threads).map(|_| boxed(memory.port().expect("a port is free"))).collect())
        }
        "memory by keys" => {
            let mut layout = Layout::new();
            let keys: Vec<_> = zeros.iter().map(|&zero| layout.add(zero)).collect();
            let memory = layout.open_with(Memory::builder().ports(threads as u32)).expect("it opens");
            let port = || memory.port().expect("a port is free");
            (None, (0..threads).map(|_| boxed(Keyed::new(port(), keys.clone()))).collect())
        }
        "opening" => {
            let (memory, ports) = opening::open(&zeros, sizes, threads as u32).expect("it opens");
            (Some(memory), ports.into_iter().map(boxed).collect())
        }
        "raw" => (None, raw::open(&zeros, sizes, threads as u32).into_iter().map(boxed).collect()),
        "called" => {
            let ports = raw::open(&zeros, sizes, threads as u32).into_iter();
            (None, ports.map(|port| boxed(Called(port))).collect())
        }
        "mutex" => all(Locked(Arc::new(Mutex::new(zeros))), threads),
        "rwlock" => all(Shared(Arc::new(RwLock::new(zeros))), threads),
        "seqlock" => all(Seqlock(Arc::new((AtomicU64::new(0), words(m)))), threads),
        "versions" => (None, versions::open(m, threads).into_iter().map(boxed).collect()),
        "collects" => all(Collects(Arc::new(words(m))), threads),
        _ => all(Plain(Arc::new(words(m))), threads),
    }
}
