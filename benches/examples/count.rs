//! A number of calls by one port, for a tool that counts instructions: updates of a single opening (`proved`) or of the
//! same algorithm in plain Rust (`plain`); or updates, reads or scans of 4 or 16 components of the long-lived memory
//! (`update`, `read`, `scan`, `scan_of_16`), or the first three by keys (`set`, `get`, `snapshot`), or of a single
//! opening (`opening_read`, `opening_scan`). Its words are one of these and the number of calls; an opening has room for
//! 1,000,000 updates and 65,536 scans.

#[allow(dead_code)]
#[path = "../src/answers.rs"]
mod answers;
#[allow(dead_code)]
#[path = "../src/raw.rs"]
mod raw;

use partial_door::opening::{self, Sizes};
use partial_door::{Key, Layout, Memory, Port};
use std::array;
use std::env::args;
use std::error::Error;
use std::hint::black_box;

const INITIAL: [u64; 4] = [0; 4];

const ALL: [u32; INITIAL.len()] = [0, 1, 2, 3];

/// Makes the calls, at one component after another.
fn make<T, E>(calls: u64, mut call: impl FnMut(u32, u64) -> Result<T, E>) -> Result<(), E> {
    for value in 0..calls {
        black_box(call((value % INITIAL.len() as u64) as u32, value)?);
    }
    Ok(())
}

type Fault = Box<dyn Error + Send + Sync>;

/// A port, and the keys of its four components.
fn typed() -> Result<(Port, [Key<u64>; INITIAL.len()]), Fault> {
    let mut layout = Layout::new();
    let keys = INITIAL.map(|value| layout.add(value));
    Ok((layout.open()?.port()?, keys))
}

fn main() -> Result<(), Fault> {
    let (kind, calls) = (args().nth(1).unwrap_or_default(), args().nth(2).unwrap_or_default().parse()?);
    match kind.as_str() {
        "proved" => {
            let mut port = opening::open(&INITIAL, Sizes::default(), 1)?.1.remove(0);
            make(calls, |component, value| port.update(component, value))?;
        }
        "opening_read" => {
            let mut port = opening::open(&INITIAL, Sizes::default(), 1)?.1.remove(0);
            make(calls, |component, _| port.read(component))?;
        }
        "opening_scan" => {
            let mut port = opening::open(&INITIAL, Sizes::default(), 1)?.1.remove(0);
            make(calls, |_, _| port.scan_array(ALL))?;
        }
        "update" => {
            let mut port = Memory::new(&INITIAL)?.port()?;
            make(calls, |component, value| port.update(component, value))?;
        }
        "read" => {
            let mut port = Memory::new(&INITIAL)?.port()?;
            make(calls, |component, _| port.read(component))?;
        }
        "scan" => {
            let mut port = Memory::new(&INITIAL)?.port()?;
            make(calls, |_, _| port.scan_array(ALL))?;
        }
        "set" => {
            let (mut port, keys) = typed()?;
            make(calls, |component, value| port.set(keys[component as usize], value))?;
        }
        "get" => {
            let (mut port, keys) = typed()?;
            make(calls, |component, _| port.get_stamped(keys[component as usize]))?;
        }
        "snapshot" => {
            let (mut port, keys) = typed()?;
            make(calls, |_, _| port.snapshot(keys))?;
        }
        "scan_of_16" => {
            let mut port = Memory::new(&[0; 16])?.port()?;
            make(calls, |_, _| port.scan_array(array::from_fn::<u32, 16, _>(|k| k as u32)))?;
        }
        "plain" => {
            let mut port = raw::open(&INITIAL, Sizes::default(), 1).remove(0);
            make(calls, |component, value| port.update(component, value))?;
        }
        _ => return Err("the words are a kind of call and a number".into()),
    }
    Ok(())
}
