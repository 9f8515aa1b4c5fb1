//! What calls of one thread take while the processor is slower than at other times, as that of a virtual machine may be. A
//! round times a loop over numbers that don't wait for each other, a scan of 4 components and a read of the long-lived
//! memory, and a scan of 4 of a list behind a lock, and writes a line of a table. The loop shows how fast the
//! processor was. Its word is the number of rounds.

use partial_door::Memory;
use std::array;
use std::env::args;
use std::error::Error;
use std::hint::black_box;
use std::sync::Mutex;
use std::time::Instant;

const M: u32 = 64;
const PARTS: u32 = 200;
// Of a part.
const CALLS: u32 = 1_000;
// Of each number, in one call.
const STEPS: u32 = 20;

/// The least time of a call in nanoseconds, over all parts.
fn least(mut call: impl FnMut(u32)) -> f64 {
    let part = |part: u32| {
        let begin = Instant::now();
        for number in part * CALLS..(part + 1) * CALLS {
            call(number);
        }
        begin.elapsed().as_nanos() as f64 / f64::from(CALLS)
    };
    (0..PARTS).map(part).fold(f64::INFINITY, f64::min)
}

/// Four components that lie side by side.
fn positions(call: u32) -> [u32; 4] {
    black_box(array::from_fn(|k| (call + k as u32) % M))
}

/// Steps of eight generators of random numbers (Marsaglia, Xorshift RNGs, 2003), none of which waits for another one.
fn generate(mut numbers: [u64; 8]) -> [u64; 8] {
    for _ in 0..STEPS {
        for number in &mut numbers {
            *number ^= *number << 13;
            *number ^= *number >> 7;
            *number ^= *number << 17;
        }
    }
    numbers
}

/// The values of these components of a list.
fn locked(list: &Mutex<Vec<u64>>, which: [u32; 4]) -> [u64; 4] {
    let values = list.lock().expect("no thread panics");
    which.map(|component| values[component as usize])
}

fn main() -> Result<(), Box<dyn Error + Send + Sync>> {
    let rounds: u32 = args().nth(1).unwrap_or_default().parse()?;
    println!("| loop | scan of 4 | read | scan of 4, mutex |\n|---|---|---|---|");
    for _ in 0..rounds {
        let mut port = Memory::new(&[0; M as usize])?.port()?;
        let list = Mutex::new(vec![0; M as usize]);
        let steps = least(|call| {
            black_box(generate(black_box([u64::from(call) + 1; 8])));
        });
        let scan = least(|call| {
            black_box(port.scan_array(positions(call)).expect("each is a component"));
        });
        let read = least(|call| {
            let _ = black_box(port.read(call % M).expect("it is a component"));
        });
        let lock = least(|call| {
            black_box(locked(&list, positions(call)));
        });
        println!("| {steps:.1} | {scan:.1} | {read:.1} | {lock:.1} |");
    }
    Ok(())
}
