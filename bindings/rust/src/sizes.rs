//! The sizes that the library gives a long-lived memory. It says none of them; these are its formulas
//! (`crates/partial_long_lived/src/options.rt`), and `tests/sizes.rs` and `tests/bytes.rs` compare them with what it does.

use crate::parts::Arena;

/// The most ports.
pub(crate) const MOST_PORTS: u32 = 255;
/// The most pool words of an arena.
const MOST_POOL: u64 = 4_194_304;
/// The most slots of an arena.
#[cfg(not(feature = "plain"))]
const MOST_SLOTS: u64 = 65_536;
/// How many pool words an arena has for each port where a program leaves that open.
const POOL_OF_PORT: u64 = 16_384;
/// The fewest that it has then.
const FEWEST_POOL: u64 = 8_192;
/// How many pool words half the arenas have together then, at most, unless each has the fewest.
const POOL_OF_ALL: u64 = 131_072;
/// How many pool words an arena has for each component then, at least.
const POOL_OF_COMPONENT: u64 = 16;
/// How many pool words half the arenas have together for their components, at most.
const POOL_OF_COMPONENTS: u64 = 33_554_432;
/// The most components times ports of a memory whose scans announce themselves.
const MOST_HELPED: u64 = 65_536;
/// The most components.
const MOST_COMPONENTS: u64 = 65_536;
/// The most words that an update claims ahead.
const MOST_AHEAD: u64 = 93;

/// Whether scans announce themselves, so that updates store views for them.
fn announces(components: u64, ports: u64) -> bool {
    ports * components <= MOST_HELPED
}

/// The pool words that are room for the greatest claim of each port: a record, with a view of all components where scans
/// announce themselves, and the words ahead.
fn claim_room(announces: bool, components: u64, ports: u64) -> u64 {
    let record = if announces { 4 + 2 * components } else { 3 };
    (record + MOST_AHEAD) * ports
}

/// The pool words that are not claimed in an epoch: the initial records, and room for the greatest claim of each port.
fn kept(components: u64, ports: u64) -> u64 {
    3 * components + claim_room(announces(components, ports), components, ports)
}

/// How many words more than those of its record an update claims, of so many pool words. There is a port at least.
#[cfg(feature = "plain")]
pub(crate) fn ahead_of(pool: u64, ports: u32) -> u64 {
    (pool / 8 / u64::from(ports)).min(MOST_AHEAD)
}

/// Whether a memory may have so many components. There is a port at least.
#[cfg(feature = "plain")]
pub(crate) fn fits(components: usize, ports: u32, arena: &Arena) -> bool {
    pool_of(components, ports, arena) + kept(components as u64, u64::from(ports)) <= MOST_POOL
}

/// The greatest number of components that a memory may have: 0 when it isn't made with any.
pub(crate) fn max_components(ports: u32, arena: &Arena) -> usize {
    if !(1..=MOST_PORTS).contains(&ports) || arena.list_words > 65_536 {
        return 0;
    }
    if arena.pool_words == 0 {
        return MOST_COMPONENTS as usize;
    }
    let ports = u64::from(ports);
    let left = |announces| MOST_POOL.saturating_sub(u64::from(arena.pool_words) + claim_room(announces, 0, ports));
    // With more components than these, scans don't announce themselves.
    let helped = MOST_HELPED / ports;
    let most = match (left(false) / 3).min(MOST_COMPONENTS) {
        most if most > helped => most,
        _ => (left(true) / (3 + 2 * ports)).min(helped),
    };
    most as usize
}

/// How many pool words of an arena are claimed before the epoch changes. There is a port at least.
pub(crate) fn pool_of(components: usize, ports: u32, arena: &Arena) -> u64 {
    let (components, ports) = (components as u64, u64::from(ports));
    match arena.pool_words {
        0 => (POOL_OF_PORT * ports)
            .min(POOL_OF_ALL / ports)
            .max((POOL_OF_COMPONENT * components).min(POOL_OF_COMPONENTS / ports))
            .min(MOST_POOL.saturating_sub(kept(components, ports)))
            .max(FEWEST_POOL),
        words => u64::from(words),
    }
}

/// How many bytes the table of a memory has: the words of the epochs and the ports, and the arenas.
#[cfg(not(feature = "plain"))]
pub(crate) fn bytes(components: usize, ports: u32, arena: &Arena) -> usize {
    let pool = pool_of(components, ports, arena);
    let (m, ports, lists) = (components as u64, u64::from(ports), u64::from(arena.list_words));
    let rest = 2 * m + 4 + lists + pool + kept(m, ports);
    let slots = if announces(m, ports) { pool / 8 } else { 0 } + ports;
    let slots = (slots + 15 - (rest + slots - 1) % 16).min(MOST_SLOTS);
    let control = 1 + ports + 2 * ports;
    let first = control + 15 - (control + 3 + m) % 16;
    (first + 2 * ports * (rest + slots)) as usize * 8
}
