//! Components with types: what a word holds, keys, and the calls by them.

use partial_door::{Key, Keys, Layout, Memory, OpenError, Port, Refused, Scanned, Updated, UpdatedIf, Word};
use std::collections::HashSet;
use std::fmt::Debug;
use std::num::{
    NonZeroI16, NonZeroI32, NonZeroI64, NonZeroI8, NonZeroIsize, NonZeroU16, NonZeroU32, NonZeroU64, NonZeroU8,
    NonZeroUsize,
};
use std::thread;
use std::time::Duration;

/// Whether each value has this word, and comes back through a component.
fn holds<T: Word + Clone + Debug + PartialEq>(values: &[(T, u64)]) {
    let mut layout = Layout::new();
    let key = layout.add(values[0].0.clone());
    let mut port = layout.open().expect("a memory is made").port().expect("a port is free");
    for (value, word) in values {
        assert_eq!(value.clone().to_word(), *word, "{value:?}");
        assert_eq!(T::from_word(*word), *value);
        assert!(port.set(key, value.clone()).expect("it isn't refused").is_applied());
        assert_eq!(port.read(0).expect("it is there").value, *word);
        assert_eq!(port.get(key), Ok(value.clone()));
    }
}

#[test]
fn integers_are_their_words() {
    holds(&[(0_u8, 0), (255, 255)]);
    holds(&[(0_u16, 0), (65_535, 65_535)]);
    holds(&[(0_u32, 0), (u32::MAX, 4_294_967_295)]);
    holds(&[(0_u64, 0), (u64::MAX, u64::MAX)]);
    holds(&[(0_usize, 0), (usize::MAX, usize::MAX as u64)]);
    holds(&[(-1_i8, u64::MAX), (127, 127), (-128, u64::MAX - 127)]);
    holds(&[(-1_i16, u64::MAX), (i16::MIN, u64::MAX - 32_767), (32_767, 32_767)]);
    holds(&[(-1_i32, u64::MAX), (i32::MIN, 0xffff_ffff_8000_0000), (i32::MAX, 0x7fff_ffff)]);
    holds(&[(-1_i64, u64::MAX), (i64::MIN, 1 << 63), (i64::MAX, u64::MAX >> 1)]);
    holds(&[(-1_isize, u64::MAX), (7, 7)]);
}

#[test]
fn other_types_have_words_too() {
    holds(&[(false, 0), (true, 1)]);
    holds(&[('\0', 0), ('a', 97), (char::MAX, 0x10_ffff)]);
    holds(&[(1.5_f32, 0x3fc0_0000), (-0.0, 0x8000_0000), (f32::INFINITY, 0x7f80_0000)]);
    holds(&[(1.5_f64, 0x3ff8_0000_0000_0000), (f64::NEG_INFINITY, 0xfff0_0000_0000_0000)]);
    holds(&[(Duration::ZERO, 0), (Duration::new(1, 2), 1_000_000_002), (Duration::from_nanos(u64::MAX), u64::MAX)]);
    assert_eq!(f64::from_word(f64::NAN.to_word()).to_bits(), f64::NAN.to_bits());
    assert_eq!(Duration::MAX.to_word(), u64::MAX);
    assert_eq!(char::from_word(0xd800), char::REPLACEMENT_CHARACTER);
    assert_eq!(char::from_word(u64::from('a') + (1 << 32)), char::REPLACEMENT_CHARACTER);
    assert!(bool::from_word(2));
}

#[test]
fn no_number_is_the_word_0() {
    holds(&[(None, 0), (NonZeroU8::new(255), 255)]);
    holds(&[(None, 0), (NonZeroU16::new(1), 1)]);
    holds(&[(None, 0), (NonZeroU32::new(u32::MAX), 4_294_967_295)]);
    holds(&[(None, 0), (NonZeroU64::new(u64::MAX), u64::MAX)]);
    holds(&[(None, 0), (NonZeroUsize::new(9), 9)]);
    holds(&[(None, 0), (NonZeroI8::new(-1), u64::MAX)]);
    holds(&[(None, 0), (NonZeroI16::new(-2), u64::MAX - 1)]);
    holds(&[(None, 0), (NonZeroI32::new(3), 3)]);
    holds(&[(None, 0), (NonZeroI64::new(i64::MIN), 1 << 63)]);
    holds(&[(None, 0), (NonZeroIsize::new(-5), u64::MAX - 4)]);
}

/// A memory with one port and components of three types.
fn three() -> (Port, Key<f64>, Key<bool>, Key<i16>) {
    let mut layout = Layout::new();
    let keys = (layout.add(0.25), layout.add(true), layout.add(-3));
    let memory = layout.open_with(Memory::builder().ports(1).pool_words(64)).expect("a memory is made");
    (memory.port().expect("a port is free"), keys.0, keys.1, keys.2)
}

#[test]
fn the_calls_by_keys_are_those_of_their_components() {
    let (mut port, load, ready, offset) = three();
    assert_eq!([load.component(), ready.component(), offset.component()], [0, 1, 2]);
    let seen = port.get_stamped(offset).expect("it is there");
    assert_eq!((seen.value, seen.stamp), (-3, port.read(2).expect("it is there").stamp));
    let Ok(Updated::Applied { stamp }) = port.set(offset, -4) else { panic!("no other port updates it") };
    assert_eq!(port.read(2).expect("it is there").stamp, stamp);
    assert_eq!(port.set_if(offset, seen.stamp, 5), Ok(UpdatedIf::Changed { by: stamp }));
    assert!(matches!(port.set_if(offset, stamp, 5), Ok(UpdatedIf::Applied { .. })));
    let change = port.change(offset, |value| value * 2).expect("it isn't refused");
    assert_eq!((change.before.value, change.after), (5, port.get_stamped(offset).expect("it is there")));
    assert_eq!(port.change_if(load, |_| None), Ok(None));
    let change = port.change_if(load, |load| Some(load + 1.0)).expect("it isn't refused").expect("it has a value");
    assert_eq!((change.before.value, change.after.value), (0.25, 1.25));
    assert_eq!(port.scan_array([0, 1, 2]).expect("it isn't refused"), [1.25_f64.to_bits(), 1, 10]);
}

#[test]
fn a_snapshot_has_the_types_of_its_keys() {
    let (mut port, load, ready, offset) = three();
    assert_eq!(port.snapshot((load,)), Ok((0.25,)));
    assert_eq!(port.snapshot((ready, load)), Ok((true, 0.25)));
    assert_eq!(port.snapshot((offset, ready, load)), Ok((-3, true, 0.25)));
    assert_eq!(port.snapshot([offset, offset]), Ok([-3, -3]));
    let none: [Key<bool>; 0] = [];
    assert_eq!(port.snapshot(none), Ok([]));
    let ((first, second), stamps) = port.snapshot_stamped((offset, load)).expect("it isn't refused");
    let reads = [2, 0].map(|component| port.read(component).expect("it is there").stamp);
    assert_eq!((first, second, stamps), (-3, 0.25, Some(reads)));
    let (values, stamps) = port.snapshot_stamped([ready]).expect("it isn't refused");
    assert_eq!((values, stamps.map(|stamps| stamps.len())), ([true], Some(1)));
    assert_eq!(port.snapshot((load, load, load, load)), Err(Refused::Length));
    let mut into = [0; 2];
    assert!(matches!(port.snapshot_slice(&[offset, offset], &mut into), Ok(Scanned { collects: 2, borrowed: None })));
    assert_eq!(into, [-3; 2]);
    assert_eq!(port.snapshot_slice(&[offset], &mut into), Err(Refused::Length));
    assert!(port.set(offset, 9).expect("it isn't refused").is_applied());
    let stamp = port.read(2).expect("it is there").stamp;
    assert_eq!(port.snapshot_stamped_slice(&[offset, offset], &mut into), Ok(Some(vec![stamp; 2])));
    assert_eq!(into, [9; 2]);
    assert_eq!(port.snapshot_stamped_slice(&[offset], &mut into), Err(Refused::Length));
}

#[test]
fn a_snapshot_takes_twelve_keys_and_a_slice_of_many() {
    let mut layout = Layout::new();
    let keys: Vec<Key<u16>> = (0..200).map(|value| layout.add(value)).collect();
    let [a, b, c, d, e, f, g, h, i, j, k, l] = [11, 1, 2, 3, 4, 5, 6, 7, 8, 9, 10, 0].map(|at| keys[at]);
    let mut port = layout.open().expect("a memory is made").port().expect("a port is free");
    let ((.., l, k), stamps) = {
        let twelve = (a, b, c, d, e, f, g, h, i, j, k, l);
        let ((a, b, c, d, e, f, g, h, i, j, k, l), stamps) = port.snapshot_stamped(twelve).expect("it isn't refused");
        assert_eq!([a, b, c, d, e, f, g, h, i, j], [11, 1, 2, 3, 4, 5, 6, 7, 8, 9]);
        ((a, l, k), stamps)
    };
    assert_eq!((k, l, stamps.map(|stamps| stamps.len())), (10, 0, Some(12)));
    for count in [1, 63, 64, 65, 200] {
        let mut into = vec![0; count];
        port.snapshot_slice(&keys[200 - count..], &mut into).expect("it isn't refused");
        assert_eq!(into, (200 - count as u16..200).collect::<Vec<_>>());
        into.fill(0);
        let stamps = port.snapshot_stamped_slice(&keys[200 - count..], &mut into).expect("it isn't refused");
        assert_eq!(stamps.map(|stamps| stamps.len()), Some(count));
        assert_eq!(into, (200 - count as u16..200).collect::<Vec<_>>());
    }
}

#[test]
fn a_key_of_another_memory_is_refused() {
    fn refused<A>(answer: Result<A, Refused>) {
        assert_eq!(answer.err(), Some(Refused::Key));
    }
    let (mut port, load, ready, offset) = three();
    let (mut other, strange, ..) = three();
    let stamp = port.get_stamped(load).expect("it is there").stamp;
    refused(port.get(strange));
    refused(port.get_stamped(strange));
    refused(port.set(strange, 1.0));
    refused(port.set_if(strange, stamp, 1.0));
    refused(port.change(strange, |_| panic!("it isn't called")));
    refused(port.change_if(strange, |_| panic!("it isn't called")));
    refused(port.snapshot((strange,)));
    refused(port.snapshot((load, ready, offset, strange)));
    refused(port.snapshot((strange, ready, offset, load)));
    refused(port.snapshot([load, strange]));
    refused(port.snapshot_stamped((ready, strange)));
    refused(port.snapshot_stamped([strange, load]));
    refused(port.snapshot_slice(&[load, strange], &mut [0.0; 2]));
    refused(port.snapshot_stamped_slice(&[strange, load], &mut [0.0; 2]));
    assert_eq!(port.set_if(load, other.get_stamped(strange).expect("it is there").stamp, 1.0), Err(Refused::Stamp));
    assert_eq!((port.get(load), other.get(strange)), (Ok(0.25), Ok(0.25)));
}

/// A key carries the number of its memory and its component in one word.
#[test]
fn a_key_is_of_one_memory_alone_however_far_apart_their_numbers_are() {
    let mut layouts: Vec<Layout> = Vec::new();
    for made in 0..200_000_u32 {
        let layout = Layout::new();
        if made.is_power_of_two() || made == 199_999 {
            layouts.push(layout);
        }
    }
    let keys: Vec<[Key<u32>; 3]> = layouts.iter_mut().map(|layout| [1, 2, 3].map(|value| layout.add(value))).collect();
    for (at, layout) in layouts.into_iter().enumerate() {
        let memory = layout.open_with(Memory::builder().ports(1).pool_words(64)).expect("a memory is made");
        let mut port = memory.port().expect("a port is free");
        for (of, &[a, b, c]) in keys.iter().enumerate() {
            let is_own = of == at;
            assert_eq!([a, b, c].map(Key::component), [0, 1, 2]);
            assert_eq!(port.get(c), if is_own { Ok(3) } else { Err(Refused::Key) });
            assert_eq!(port.snapshot((c, a, b)), if is_own { Ok((3, 1, 2)) } else { Err(Refused::Key) });
            let [first, second, third] = keys[at];
            let mixed = if is_own { Ok([3, 1, 2]) } else { Err(Refused::Key) };
            assert_eq!(port.snapshot([third, first, b]), mixed);
            assert_eq!(port.snapshot([c, first, second]), mixed);
        }
    }
}

#[test]
fn the_greatest_layout_has_a_key_for_each_component() {
    let mut layout = Layout::new();
    let keys: Vec<Key<u32>> = (0..65_536).map(|value| layout.add(value)).collect();
    let memory = layout.open_with(Memory::builder().ports(1)).expect("a memory is made");
    let mut port = memory.port().expect("a port is free");
    assert_eq!(port.snapshot((keys[65_535], keys[0])), Ok((65_535, 0)));
    let mut layout = Layout::new();
    let keys: Vec<Key<u32>> = (0..65_538).map(|value| layout.add(value)).collect();
    assert_eq!([65_535, 65_537].map(|at| keys[at].component()), [65_535, 65_535]);
    assert_eq!(layout.open_with(Memory::builder().ports(1)).err(), Some(OpenError::Components));
}

#[test]
fn keys_of_one_component_are_equal_and_no_others() {
    let (mut one, mut other) = (Layout::new(), Layout::default());
    let keys = [one.add(1_u8), one.add(1), other.add(1), other.add(1)];
    assert_eq!(keys.iter().collect::<HashSet<_>>().len(), 4);
    let copy = keys[2];
    assert!(copy == keys[2] && copy != keys[0] && format!("{copy:?}") == format!("{:?}", keys[2]));
}

#[test]
fn a_layout_is_refused_as_its_values_are() {
    assert_eq!(Layout::new().open().err(), Some(OpenError::Components));
    let mut layout = Layout::new();
    for value in 0..79_u32 {
        let key = layout.add(value);
        assert_eq!(key.component(), value);
    }
    assert_eq!(layout.open_with(Memory::builder().pool_words(4_190_000)).err(), Some(OpenError::PoolWords));
}

#[test]
fn no_change_by_a_key_is_lost() {
    let mut layout = Layout::new();
    let (sum, count) = (layout.add(0_i64), layout.add(0_u32));
    let memory = layout.open_with(Memory::builder().ports(4).pool_words(64)).expect("a memory is made");
    thread::scope(|scope| {
        for step in [-3, 5, -7, 11] {
            let mut port = memory.port().expect("a port is free");
            scope.spawn(move || {
                for _ in 0..2000 {
                    let change = port.change(sum, |sum| sum + step).expect("it isn't refused so often");
                    assert_eq!(change.after.value - change.before.value, step);
                    port.change(count, |count| count + 1).expect("it isn't refused so often");
                }
            });
        }
    });
    assert_eq!(memory.port().expect("a port is free").snapshot((sum, count)), Ok((2000 * 6, 8000)));
}

#[test]
fn keys_and_layouts_may_go_to_other_threads_whatever_their_type() {
    fn is_shared<T: Send + Sync + 'static>() {}
    struct Local(*const u8);
    impl Word for Local {
        fn to_word(self) -> u64 {
            u64::from(self.0.is_null())
        }
        fn from_word(_: u64) -> Local {
            Local(std::ptr::null())
        }
    }
    is_shared::<Key<Local>>();
    is_shared::<Layout>();
    fn are_keys<K: Keys>(_: K) {}
    let mut layout = Layout::new();
    let key = layout.add(Local(std::ptr::null()));
    are_keys((key, key));
    are_keys([key; 3]);
    assert_eq!(key.component(), 0);
}
