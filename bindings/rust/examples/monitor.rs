//! A monitor of accounts: each writer moves units between two accounts of its own, one update after the other, and
//! the monitor sees in each scan that at most one unit of each writer is on its way.
//!
//! Two reads, one after the other, could miss more: a scan shows all accounts at one moment. A word says how many
//! updates the writers make; without one they make ten million.

use partial_door::{Memory, Port, Refused};
use std::error::Error;
use std::sync::atomic::{AtomicU32, Ordering};
use std::thread;

const WRITERS: u32 = 4;
const UNITS: u64 = 1000;
const UPDATES: u64 = 10_000_000;

/// Sets an account of this writer. An update that is refused for the moment is made again.
fn set(port: &mut Port, account: u32, units: u64) -> Result<(), Refused> {
    let updated = port.retry(|port| port.update(account, units))?;
    assert!(updated.is_applied(), "no other writer updates the account");
    Ok(())
}

/// Moves units from one account of this writer to the other and back: out of one first, and then into the other.
fn move_units(mut port: Port, writer: u32, moves: u64) -> Result<(), Refused> {
    let accounts = [2 * writer, 2 * writer + 1];
    let mut held = [UNITS, 0];
    for turn in 0..moves {
        let from = (turn / UNITS % 2) as usize;
        held[from] -= 1;
        set(&mut port, accounts[from], held[from])?;
        held[1 - from] += 1;
        set(&mut port, accounts[1 - from], held[1 - from])?;
    }
    Ok(())
}

/// Scans all accounts until the writers are done. Returns how often, and in how many scans a unit was on its way.
fn monitor(mut port: Port, writing: &AtomicU32) -> Result<(u64, u64), Refused> {
    let mut values = vec![0; 2 * WRITERS as usize];
    let (mut scans, mut moving) = (0, 0);
    while writing.load(Ordering::Acquire) > 0 {
        port.scan_all(&mut values)?;
        for pair in values.chunks(2) {
            let sum = pair[0] + pair[1];
            assert!(sum == UNITS || sum == UNITS - 1, "{pair:?} aren't the accounts of one moment");
        }
        scans += 1;
        moving += u64::from(values.iter().sum::<u64>() < u64::from(WRITERS) * UNITS);
    }
    Ok((scans, moving))
}

fn main() -> Result<(), Box<dyn Error + Send + Sync>> {
    let updates = std::env::args().nth(1).map_or(Ok(UPDATES), |word| word.parse())?;
    let moves = updates / u64::from(2 * WRITERS);
    let initial: Vec<u64> = (0..WRITERS).flat_map(|_| [UNITS, 0]).collect();
    let memory = Memory::new(&initial)?;
    let writing = AtomicU32::new(WRITERS);
    let (scans, moving) = thread::scope(|scope| {
        for writer in 0..WRITERS {
            let (port, writing) = (memory.port()?, &writing);
            scope.spawn(move || {
                let moved = move_units(port, writer, moves);
                writing.fetch_sub(1, Ordering::Release);
                moved.expect("no update is refused");
            });
        }
        Ok::<_, Box<dyn Error + Send + Sync>>(monitor(memory.port()?, &writing)?)
    })?;
    let values = memory.close()?;
    assert!(values.chunks(2).all(|pair| pair.iter().sum::<u64>() == UNITS));
    println!("{scans} scans beside {} updates: a unit was on its way in {moving}", 2 * moves * u64::from(WRITERS));
    Ok(())
}
