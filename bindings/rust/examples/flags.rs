//! A store of flags, 64 to a component, that threads flip by conditional updates. No flip is lost: at the end a flag
//! is set exactly when it was flipped an odd number of times.
//!
//! A word says how often flags are flipped; without one they are flipped ten million times.

use partial_door::{Memory, Port, Refused};
use std::error::Error;
use std::thread;

const WORDS: u32 = 4;
const THREADS: u32 = 4;
const FLIPS: u64 = 10_000_000;

/// Flips flags by turns, and returns which ones this thread has flipped an odd number of times.
fn flip(mut port: Port, thread: u32, flips: u64) -> Result<[u64; WORDS as usize], Refused> {
    let mut odd = [0; WORDS as usize];
    for turn in 0..flips {
        let number = (turn * 7 + u64::from(thread)) % (64 * u64::from(WORDS));
        let (word, flag) = ((number / 64) as u32, 1 << (number % 64));
        port.modify(word, |flags| Some(flags ^ flag))?;
        odd[word as usize] ^= flag;
    }
    Ok(odd)
}

/// Sets the first flag that is clear in two words, when one is, as they stand together at one moment. The word is the one
/// that the scan saw, by its stamp; otherwise the two are scanned again.
fn set_first_clear(port: &mut Port, words: [u32; 2]) -> Result<Option<u64>, Refused> {
    loop {
        let (flags, Some(stamps)) = port.scan_stamped(words)? else { continue };
        let Some(k) = flags.iter().position(|&word| word != u64::MAX) else { return Ok(None) };
        let flag = flags[k].trailing_ones();
        if port.retry(|port| port.update_if(words[k], stamps[k], flags[k] | 1 << flag))?.is_applied() {
            return Ok(Some(64 * u64::from(words[k]) + u64::from(flag)));
        }
    }
}

fn main() -> Result<(), Box<dyn Error + Send + Sync>> {
    let flips = std::env::args().nth(1).map_or(Ok(FLIPS), |word| word.parse())? / u64::from(THREADS);
    let memory = Memory::new(&[0; WORDS as usize])?;
    let ports = (0..THREADS).map(|_| memory.port()).collect::<Result<Vec<_>, _>>()?;
    let threads: Vec<_> =
        (0..).zip(ports).map(|(thread, port)| thread::spawn(move || flip(port, thread, flips))).collect();
    let mut odd = [0; WORDS as usize];
    for thread in threads {
        for (all, one) in odd.iter_mut().zip(thread.join().expect("no thread panics")?) {
            *all ^= one;
        }
    }
    let mut port = memory.port()?;
    assert_eq!(port.scan_array([0, 1, 2, 3])?, odd);
    let set = set_first_clear(&mut port, [1, 3])?;
    drop(port);
    let flags: u32 = memory.close()?.iter().map(|word| word.count_ones()).sum();
    println!("{} flips by {THREADS} threads: {flags} flags are set, at last {set:?}", flips * u64::from(THREADS));
    Ok(())
}
