use super::*;
use std::sync::atomic::AtomicBool;

const SMALL: Sizes = Sizes { slots: 4, list_words: 8, pool_words: 60 };
const POSITIONS: usize = 256;
const LARGE: Sizes = Sizes { slots: 65_536, list_words: 65_536, pool_words: 4_194_304 };

fn lone(initial: &[u64], sizes: Sizes) -> Port {
    open(initial, sizes, 1).remove(0)
}

fn scanned<const R: usize>(port: &mut Port, which: [u32; R]) -> ([u64; R], Scanned) {
    let mut into = [0; R];
    let scanned = port.scan(&which, &mut into).expect("there are slots and pool words");
    (into, scanned)
}

// Three components: the pool begins at word 19, after 3 + 4 words, 4 slots and 8 list words, and the first
// free word is 28.
#[test]
fn a_lone_port_reads_what_it_wrote() {
    let mut port = lone(&[10, 20, 30], SMALL);
    assert_eq!(port.read(1), Ok(Value { value: 20, stamp: 22 }));
    assert_eq!(port.update(1, 21), Ok(Updated::Applied { stamp: 28 }));
    assert_eq!(port.read(1), Ok(Value { value: 21, stamp: 28 }));
    assert_eq!(port.update_if(1, 22, 5), Ok(UpdatedIf::Changed { by: 28 }));
    assert_eq!(port.update_if(1, 28, 22), Ok(UpdatedIf::Applied { stamp: 31 }));
    let two_collects = Scanned { collects: 2, borrowed: None };
    assert_eq!(scanned(&mut port, [2, 1, 1]), ([30, 22, 22], two_collects));
    assert_eq!(port.scan(&[], &mut []), Ok(Scanned { collects: 0, borrowed: None }));
}

#[test]
fn wrong_positions_are_refused() {
    let mut port = lone(&[10, 20], SMALL);
    assert_eq!(port.read(2), Err(Refused::Component));
    assert_eq!(port.update(2, 0), Err(Refused::Component));
    assert_eq!(port.update_if(2, 0, 0), Err(Refused::Component));
    assert_eq!(port.scan(&[0, 2], &mut [0; 2]), Err(Refused::Component));
    assert_eq!(port.scan(&[0], &mut [0; 2]), Err(Refused::Length));
    assert_eq!(port.scan(&[0; 3], &mut [0; 3]), Err(Refused::Length));
}

// Two records fit. The port whose claim goes past the end is marked, and the other one isn't yet.
#[test]
fn a_spent_pool_refuses_updates_and_scans() {
    let mut ports = open(&[1], Sizes { slots: 4, list_words: 0, pool_words: 9 }, 2);
    assert!(ports[0].update(0, 2).is_ok() && ports[0].update(0, 3).is_ok());
    assert_eq!(ports[0].update(0, 4), Err(Refused::PoolSpent));
    let counter = ports[0].words.load(ports[0].layout.pool_counter());
    assert_eq!(ports[0].scan(&[0], &mut [0]), Err(Refused::PoolSpent));
    assert_eq!(ports[0].update_if(0, 0, 4), Err(Refused::PoolSpent));
    assert_eq!(ports[0].words.load(ports[0].layout.pool_counter()), counter);
    assert_eq!(ports[0].scan(&[], &mut []).map(|scanned| scanned.collects), Ok(0));
    assert!(!ports[1].pool_spent);
    assert_eq!(ports[1].scan(&[0], &mut [0]), Err(Refused::PoolSpent));
    assert_eq!(ports[1].read(0).map(|read| read.value), Ok(3));
}

#[test]
fn spent_slots_refuse_scans_alone() {
    let mut port = lone(&[1], Sizes { slots: 2, list_words: 0, pool_words: 40 });
    scanned(&mut port, [0]);
    scanned(&mut port, [0]);
    let mut into = [7];
    assert_eq!(port.scan(&[0], &mut into), Err(Refused::SlotsSpent));
    assert_eq!(port.scan(&[0], &mut into), Err(Refused::SlotsSpent));
    assert_eq!(into, [7]);
    assert!(port.update(0, 2).is_ok());
}

// Slots 0 and 1 are vacated, and the first update publishes a list of them, for which there is just room.
#[test]
fn vacated_slots_are_published() {
    let mut port = lone(&[1, 2], Sizes { list_words: 3, ..SMALL });
    scanned(&mut port, [0]);
    scanned(&mut port, [1, 0]);
    assert!(port.update(0, 5).is_ok());
    let list = port.words.load(port.layout.list_head());
    assert_eq!(list, port.layout.list_base);
    assert_eq!(port.words.pairs(list).collect::<Vec<_>>(), [(0, 1)]);
    assert!(port.update(0, 6).is_ok());
    assert_eq!(port.words.load(port.layout.list_counter()), list + 3);
}

#[test]
fn spent_list_words_refuse_nothing() {
    let mut port = lone(&[1], Sizes { slots: 4, list_words: 2, pool_words: 60 });
    scanned(&mut port, [0]);
    assert!(port.update(0, 5).is_ok());
    assert!(port.lists_spent);
    assert_eq!(port.words.load(port.layout.list_head()), 0);
    assert!(port.update(0, 6).is_ok());
}

// An announcement that stands in a slot makes updates keep a view of its indices, until it is vacated.
#[test]
fn updates_keep_a_view_of_what_is_announced() {
    let mut ports = open(&[10, 20, 30], SMALL, 2);
    let slot = ports[0].join(&[2, 1, 2]).expect("there is a slot");
    let Ok(Updated::Applied { stamp }) = ports[1].update(1, 21) else { panic!("nobody else updates") };
    let view = ports[1].words.load(stamp + 2);
    assert_eq!(view, stamp + 3);
    assert_eq!(ports[1].words.pairs(view).collect::<Vec<_>>(), [(2, 30), (1, 20)]);
    let mut values = [0; 2];
    ports[0].borrow(stamp, &[1, 2], &mut values);
    assert_eq!(values, [20, 30]);
    ports[0].words.store(slot, VACATED);
    let Ok(Updated::Applied { stamp }) = ports[1].update(1, 22) else { panic!("nobody else updates") };
    assert_eq!(ports[1].words.load(stamp + 2), 0);
}

// A borrowed view is referred to and not copied: the record has three words.
#[test]
fn records_share_a_borrowed_view() {
    let mut ports = open(&[10, 20, 30], SMALL, 2);
    ports[0].join(&[2, 1]).expect("there is a slot");
    ports[1].get_set();
    let next = ports[1].words.load(ports[1].layout.pool_counter());
    assert_eq!(ports[1].write_record(22, 21, Some(40)), Ok(next));
    assert_eq!([0, 1, 2].map(|word| ports[1].words.load(next + word)), [22, 21, 40]);
    assert_eq!(ports[1].words.load(ports[1].layout.pool_counter()), next + 3);
}

// Each of three writers counts in two components in turn. No count falls from one scan to the next, and the first
// of the two is never behind the second, and never ahead by more than one. Scans of many positions are made, in new
// memories, until some have borrowed a view. By then the view of each record that has one is of a moment between the
// record before it and itself.
#[test]
fn scans_of_counts_never_fall() {
    let mut borrowed = 0;
    for _ in 0..50 {
        borrowed += views_borrowed_beside_writers();
        if borrowed >= 10 {
            return;
        }
    }
    panic!("{borrowed} views were borrowed");
}

fn views_borrowed_beside_writers() -> usize {
    let mut ports = open(&[0; POSITIONS], LARGE, 4);
    let mut eye = ports.pop().expect("four ports");
    let ends = AtomicBool::new(false);
    let borrowed = std::thread::scope(|scope| {
        for (writer, port) in ports.into_iter().enumerate() {
            let ends = &ends;
            scope.spawn(move || count_in_two(port, 2 * writer as u32, ends));
        }
        let which: [u32; POSITIONS] = std::array::from_fn(|position| position as u32 % 6);
        let mut before = [0; POSITIONS];
        let mut borrowed = 0;
        for _ in 0..1_000 {
            let (values, how) = scanned(&mut eye, which);
            assert!(before.iter().zip(&values).all(|(before, value)| before <= value));
            assert!(values.chunks(6).all(|again| again == &values[..again.len()]));
            assert!(values[..6].chunks(2).all(|pair| pair[0] == pair[1] || pair[0] == pair[1] + 1));
            assert!(how.collects >= 2 + u32::from(how.borrowed.is_some()));
            borrowed += usize::from(how.borrowed.is_some());
            before = values;
        }
        ends.store(true, SeqCst);
        borrowed
    });
    assert_views_are_fresh(&eye);
    borrowed
}

fn assert_views_are_fresh(port: &Port) {
    for component in 0..6 {
        let mut stamp = port.words.load(component);
        while port.words.load(stamp) != 0 {
            let (before, view) = (port.words.load(stamp), port.words.load(stamp + 2));
            let pairs = (view != 0).then(|| port.words.pairs(view));
            let own = pairs.into_iter().flatten().find(|(index, _)| *index == component);
            assert!(own.is_none_or(|(_, value)| value == port.words.load(before + 1)));
            stamp = before;
        }
    }
}

// The pool has room for so many updates of three writers, each with a view of six components.
fn count_in_two(mut port: Port, first: u32, ends: &AtomicBool) {
    for count in 1..30_000 {
        for component in [first, first + 1] {
            if ends.load(SeqCst) {
                return;
            }
            port.update(component, count).expect("the pool is large enough");
        }
    }
}

// Numbers below a limit, the same in each run.
struct Random(u64);

impl Random {
    fn below(&mut self, limit: usize) -> usize {
        self.0 = self.0.wrapping_mul(6_364_136_223_846_793_005).wrapping_add(1_442_695_040_888_963_407);
        (self.0 >> 33) as usize % limit
    }
}

// The words are laid out alike, so a door and a raw memory whose ports make the same calls, one after another,
// answer alike to the last stamp, and are refused alike.
#[test]
fn answers_are_those_of_the_door() {
    let mut random = Random(1);
    for _ in 0..400 {
        let m = 1 + random.below(6);
        let sizes = Sizes {
            slots: 1 + random.below(40) as u32,
            list_words: random.below(60) as u32,
            pool_words: (3 * m + random.below(600)) as u32,
        };
        let initial: Vec<u64> = (0..m as u64).collect();
        let (_memory, mut doors) = partial_door::opening::open(&initial, sizes, 3).expect("it opens");
        let mut raws = open(&initial, sizes, 3);
        for _ in 0..200 {
            let port = random.below(3);
            assert_alike(&mut doors[port], &mut raws[port], m, &mut random);
        }
    }
}

// Makes one call at both ports. A component out of range comes up now and then.
fn assert_alike(door: &mut partial_door::opening::Port, raw: &mut Port, m: usize, random: &mut Random) {
    let component = random.below(m + 1) as u32;
    let value = random.below(1_000) as u64;
    match random.below(4) {
        0 => assert_eq!(door.update(component, value).map(Updated::from), raw.update(component, value)),
        1 => assert_eq!(door.read(component).map(Value::from), raw.read(component)),
        2 => {
            // One time in three the stamp of another component, which this one never has.
            let asked = [component as usize % m, random.below(m)][random.below(3) / 2] as u32;
            let expected = door.read(asked).expect("the component is there").stamp;
            let one = door.update_if(component, expected, value).map(UpdatedIf::from);
            assert_eq!(one, raw.update_if(component, expected.word(), value));
        }
        _ => {
            let limit = m + random.below(20) / 19;
            let which: Vec<u32> = (0..random.below(m + 2)).map(|_| random.below(limit) as u32).collect();
            let (mut one, mut other) = (vec![7; which.len()], vec![7; which.len()]);
            assert_eq!(door.scan(&which, &mut one).map(Scanned::from), raw.scan(&which, &mut other));
            assert_eq!(one, other);
        }
    }
}
