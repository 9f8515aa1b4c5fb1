//! What the calls by keys have to be compiled to: each beside the same written by hand, which compares the memory of the
//! keys once, makes the call by indices and converts the words. `tests/same_code.py` compares the machine code of the pairs
//! in an optimised build.

use super::{of_another_memory, Key};
use crate::{Change, Layout, Port, Refused, Stamp, Updated, UpdatedIf, Value};

type Four = (Key<u64>, Key<f64>, Key<bool>, Key<i16>);

/// The component of a key that has this word.
#[inline]
fn component(port: &Port, word: u64) -> Result<u32, Refused> {
    let seen = word ^ port.memory();
    if seen >> 16 == 0 {
        Ok(seen as u32)
    } else {
        Err(of_another_memory())
    }
}

/// The components of four keys that have these words.
#[inline]
fn components(port: &Port, words: [u64; 4]) -> Result<[u32; 4], Refused> {
    let [a, b, c, d] = words.map(|word| word ^ port.memory());
    if (a | b | c | d) >> 16 == 0 {
        Ok([a as u32, b as u32, c as u32, d as u32])
    } else {
        Err(of_another_memory())
    }
}

/// Pairs of functions that are never inlined, and have the names under which they are looked for.
macro_rules! pairs {
    ($($keyed:ident $by_hand:ident ($port:ident $(, $given:ident: $of:ty)*) -> $answer:ty {
        $call:expr, $same:expr $(,)?
    })*) => {$(
        #[no_mangle]
        #[inline(never)]
        fn $keyed($port: &mut Port $(, $given: $of)*) -> Result<$answer, Refused> {
            $call
        }

        #[no_mangle]
        #[inline(never)]
        fn $by_hand($port: &mut Port $(, $given: $of)*) -> Result<$answer, Refused> {
            $same
        }
    )*};
}

pairs! {
    keyed_get by_hand_get(port, key: Key<u64>) -> u64 {
        port.get(key),
        Ok(port.read(component(port, key.word)?)?.value),
    }
    keyed_get_float by_hand_get_float(port, key: Key<f64>) -> f64 {
        port.get(key),
        Ok(f64::from_bits(port.read(component(port, key.word)?)?.value)),
    }
    keyed_get_stamped by_hand_get_stamped(port, key: Key<u64>) -> Value {
        port.get_stamped(key),
        port.read(component(port, key.word)?),
    }
    keyed_set by_hand_set(port, key: Key<u64>, value: u64) -> Updated {
        port.set(key, value),
        port.update(component(port, key.word)?, value),
    }
    keyed_set_short by_hand_set_short(port, key: Key<i16>, value: i16) -> Updated {
        port.set(key, value),
        port.update(component(port, key.word)?, value as u64),
    }
    keyed_set_if by_hand_set_if(port, key: Key<u64>, expected: Stamp, value: u64) -> UpdatedIf {
        port.set_if(key, expected, value),
        port.update_if(component(port, key.word)?, expected, value),
    }
    keyed_change_if by_hand_change_if(port, key: Key<u64>) -> Option<Change> {
        port.change_if(key, |value| value.checked_add(1)),
        port.modify(component(port, key.word)?, |value| value.checked_add(1)),
    }
    keyed_snapshot by_hand_snapshot(port, keys: Four) -> (u64, f64, bool, i16) {
        port.snapshot(keys),
        {
            let which = components(port, [keys.0.word, keys.1.word, keys.2.word, keys.3.word])?;
            let [a, b, c, d] = port.scan_array(which)?;
            Ok((a, f64::from_bits(b), c != 0, d as i16))
        }
    }
    keyed_snapshot_array by_hand_snapshot_array(port, keys: [Key<u64>; 4]) -> [u64; 4] {
        port.snapshot(keys),
        port.scan_array(components(port, keys.map(|key| key.word))?),
    }
    keyed_snapshot_stamped by_hand_snapshot_stamped(port, keys: [Key<u64>; 4]) -> ([u64; 4], Option<[Stamp; 4]>) {
        port.snapshot_stamped(keys),
        port.scan_stamped(components(port, keys.map(|key| key.word))?),
    }
}

/// A port of a memory with one component of each type, and their keys.
fn four() -> (Port, Four) {
    let mut layout = Layout::new();
    let keys = (layout.add(7), layout.add(0.5), layout.add(true), layout.add(-3));
    (layout.open().expect("a memory is made").port().expect("a port is free"), keys)
}

#[test]
fn reads_by_hand_answer_as_those_by_keys() {
    let ((mut port, keys), (_, strange)) = (four(), four());
    for (key, answer) in [(keys.0, Ok(7)), (strange.0, Err(Refused::Key))] {
        assert_eq!((keyed_get(&mut port, key), by_hand_get(&mut port, key)), (answer, answer));
        let stamped = keyed_get_stamped(&mut port, key);
        assert_eq!(stamped, by_hand_get_stamped(&mut port, key));
        assert_eq!(stamped.map(|read| read.value), answer);
    }
    for (key, answer) in [(keys.1, Ok(0.5)), (strange.1, Err(Refused::Key))] {
        assert_eq!((keyed_get_float(&mut port, key), by_hand_get_float(&mut port, key)), (answer, answer));
    }
    for (keys, answer) in [(keys, Ok((7, 0.5, true, -3))), (strange, Err(Refused::Key))] {
        assert_eq!((keyed_snapshot(&mut port, keys), by_hand_snapshot(&mut port, keys)), (answer, answer));
    }
    for (keys, answer) in [([keys.0; 4], Ok([7; 4])), ([keys.0, keys.0, strange.0, keys.0], Err(Refused::Key))] {
        assert_eq!((keyed_snapshot_array(&mut port, keys), by_hand_snapshot_array(&mut port, keys)), (answer, answer));
        let stamped = keyed_snapshot_stamped(&mut port, keys);
        assert_eq!(stamped, by_hand_snapshot_stamped(&mut port, keys));
        assert_eq!(stamped.map(|(values, stamps)| (values, stamps.is_some())), answer.map(|values| (values, true)));
    }
}

#[test]
fn updates_by_hand_answer_as_those_by_keys() {
    let ((mut port, keys), (_, strange)) = (four(), four());
    for (set, value) in [(keyed_set as fn(&mut Port, _, _) -> _, 8), (by_hand_set, 9)] {
        assert!(set(&mut port, keys.0, value).expect("it isn't refused").is_applied());
        assert_eq!((port.get(keys.0), set(&mut port, strange.0, 1)), (Ok(value), Err(Refused::Key)));
    }
    for (set, value) in [(keyed_set_short as fn(&mut Port, _, _) -> _, -8), (by_hand_set_short, -9)] {
        assert!(set(&mut port, keys.3, value).expect("it isn't refused").is_applied());
        assert_eq!((port.get(keys.3), set(&mut port, strange.3, 1)), (Ok(value), Err(Refused::Key)));
    }
    for (set_if, value) in [(keyed_set_if as fn(&mut Port, _, _, _) -> _, 10), (by_hand_set_if, 11)] {
        let seen = port.read(0).expect("it is there").stamp;
        assert!(set_if(&mut port, keys.0, seen, value).expect("it isn't refused").is_applied());
        assert!(!set_if(&mut port, keys.0, seen, 1).expect("it isn't refused").is_applied());
        assert_eq!((port.get(keys.0), set_if(&mut port, strange.0, seen, 1)), (Ok(value), Err(Refused::Key)));
    }
    for (change_if, value) in [(keyed_change_if as fn(&mut Port, _) -> _, 12), (by_hand_change_if, 13)] {
        let change = change_if(&mut port, keys.0).expect("it isn't refused").expect("it has room");
        assert_eq!((change.before.value, change.after), (value - 1, port.read(0).expect("it is there")));
        assert_eq!((port.get(keys.0), change_if(&mut port, strange.0)), (Ok(value), Err(Refused::Key)));
    }
}
