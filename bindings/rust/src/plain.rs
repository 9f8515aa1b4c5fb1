//! The functions of the library in plain Rust, for the feature `plain`. Nothing of them is proved. They have the names, the
//! numbers and the answers of the library's, so the rest of the crate is the same over both.
//!
//! Each memory is a table behind a lock, which each call holds. So no call is helped or overtaken, no update is lost, and a
//! call waits for the others. Updates claim pool words as those of the library that store no view do, so epochs change and
//! openings wear out here too. A scan finds its values at once, whatever the sizes: it neither announces itself nor changes
//! the epoch. Openings are refused for the same sizes as the library's.

use crate::counted::Counted;
use crate::sizes::{ahead_of, fits, pool_of, MOST_PORTS};
use std::mem::take;
use std::ops::Range;
use std::slice::{from_raw_parts, from_raw_parts_mut};
use std::sync::{Mutex, MutexGuard, PoisonError};

pub(crate) use crate::parts::{Arena, PortState, ReadAnswer, ScanAnswer, Sizes, UpdateAnswer};

const FINE: u32 = 0;
const OUT_OF_MEMORY: u32 = 6;
const COMPONENT: u32 = 7;
const SLOTS_SPENT: u32 = 8;
const POOL_SPENT: u32 = 9;
const HOLDS_NONE: u32 = 17;
const HOLDS_ONE: u32 = 18;
const LENGTH: u32 = 19;
const TWO_MEMORIES: u32 = 20;
const NONE_FREE: u32 = 21;
const NOT_ALL: u32 = 22;

/// The words that the record of an update takes.
const RECORD: u64 = 3;
/// The bits of a stamp below those of the epoch.
const EPOCH_BITS: u32 = 23;

/// What calls end with: nothing, or the number of the refusal.
type Ended = Result<(), u32>;

/// A handle: it holds a memory, a port of one, the values of a closed opening, or nothing.
pub struct Handle {
    held: Held,
}

#[derive(Default)]
enum Held {
    #[default]
    Nothing,
    Memory {
        table: Counted<Table>,
        seats: Vec<Seat>,
        count: u32,
    },
    Port {
        table: Counted<Table>,
        seat: Seat,
    },
    Closed(Vec<u64>),
}

/// A port's number and marks. In a long-lived memory it also has the epoch of its last claim, and of the words of
/// that claim those that it keeps for later records.
struct Seat {
    number: u32,
    pool_spent: bool,
    slots_spent: bool,
    epoch: u64,
    spare: Range<u64>,
}

/// What the ports of a memory share.
struct Table {
    kind: Kind,
    cells: Mutex<Cells>,
}

#[derive(Clone, Copy)]
enum Kind {
    /// A long-lived memory, whose epochs have so many pool words, and whose updates claim so many ahead.
    Lasting { pool: u64, ahead: u64 },
    /// A single opening, with so many pool words and slots.
    Opening { pool: u64, slots: u32 },
}

/// The value and the stamp of each component, and what was claimed: in this epoch, or in all of an opening.
struct Cells {
    values: Vec<u64>,
    stamps: Vec<u64>,
    claimed: u64,
    epoch: u64,
    slots: u32,
}

impl Handle {
    pub const fn empty() -> Handle {
        Handle { held: Held::Nothing }
    }

    pub fn is_empty(&self) -> bool {
        matches!(self.held, Held::Nothing)
    }

    /// The table and the seat of the port that this holds.
    fn port(&mut self) -> Result<(&Table, &mut Seat), u32> {
        match &mut self.held {
            Held::Port { table, seat } => Ok((table, seat)),
            _ => Err(HOLDS_NONE),
        }
    }
}

impl Table {
    fn cells(&self) -> MutexGuard<'_, Cells> {
        self.cells.lock().unwrap_or_else(PoisonError::into_inner)
    }

    /// Takes the words of an update's record, and returns its stamp.
    fn take_record(&self, cells: &mut Cells, seat: &mut Seat) -> Result<u64, u32> {
        let initial = RECORD * cells.values.len() as u64;
        let at = match self.kind {
            Kind::Lasting { pool, ahead } => cells.take_record(seat, pool, ahead),
            Kind::Opening { pool, .. } => self.claim_words(cells, seat, pool, RECORD)?,
        };
        Ok(cells.epoch << EPOCH_BITS | (initial + at))
    }

    /// Claims so many words, or marks the port when the opening has no room for them.
    fn claim_words(&self, cells: &mut Cells, seat: &mut Seat, pool: u64, words: u64) -> Result<u64, u32> {
        let used = RECORD * cells.values.len() as u64 + cells.claimed;
        seat.pool_spent |= used + words > pool;
        if seat.pool_spent {
            Err(POOL_SPENT)
        } else {
            Ok(cells.claim(words))
        }
    }

    /// Claims what a scan of so many positions announces in an opening.
    fn announce(&self, cells: &mut Cells, seat: &mut Seat, positions: usize) -> Ended {
        let Kind::Opening { pool, slots } = self.kind else { return Ok(()) };
        if seat.pool_spent {
            return Err(POOL_SPENT);
        }
        seat.slots_spent |= cells.slots == slots;
        if seat.slots_spent {
            return Err(SLOTS_SPENT);
        }
        cells.slots += 1;
        self.claim_words(cells, seat, pool, 1 + positions as u64)?;
        Ok(())
    }
}

impl Cells {
    /// Claims so many words, and returns the first of them.
    fn claim(&mut self, words: u64) -> u64 {
        let at = self.claimed;
        self.claimed += words;
        at
    }

    /// Takes the words of a record from those that the port keeps, or claims them with those ahead. A port whose claim ended
    /// past the pool changes the epoch first, and in a later epoch it keeps none. Returns the first word.
    fn take_record(&mut self, seat: &mut Seat, pool: u64, ahead: u64) -> u64 {
        if seat.epoch == self.epoch && seat.spare.end > pool {
            self.epoch += 1;
            self.claimed = 0;
        }
        if seat.epoch != self.epoch {
            seat.epoch = self.epoch;
            seat.spare = 0..0;
        }
        if seat.spare.end - seat.spare.start < RECORD {
            let at = self.claim(RECORD + ahead);
            seat.spare = at..self.claimed;
        }
        seat.spare.start += RECORD;
        seat.spare.start - RECORD
    }
}

/// The number of how a call ended.
fn number(ended: Ended) -> u32 {
    ended.err().unwrap_or(FINE)
}

/// A list of these elements, with zeros after them, `count` in all, unless memory is refused.
fn listed(from: &[u64], count: usize) -> Result<Vec<u64>, u32> {
    let mut list = Vec::new();
    list.try_reserve_exact(count).map_err(|_| OUT_OF_MEMORY)?;
    list.extend_from_slice(from);
    list.resize(count, 0);
    Ok(list)
}

/// Makes a memory with all its ports.
fn make(kind: Kind, values: Vec<u64>, count: u32) -> Result<Held, u32> {
    let mut stamps = listed(&[], values.len())?;
    for (component, stamp) in stamps.iter_mut().enumerate() {
        *stamp = RECORD * component as u64;
    }
    let mut seats = Vec::new();
    seats.try_reserve_exact(count as usize).map_err(|_| OUT_OF_MEMORY)?;
    seats.extend((0..count).map(|number| Seat {
        number,
        pool_spent: false,
        slots_spent: false,
        epoch: 0,
        spare: 0..0,
    }));
    let cells = Mutex::new(Cells { values, stamps, claimed: 0, epoch: 0, slots: 0 });
    let table = Counted::new(Table { kind, cells }).ok_or(OUT_OF_MEMORY)?;
    Ok(Held::Memory { table, seats, count })
}

/// How many bytes the values and the stamps take.
pub(crate) fn bytes(components: usize, _ports: u32, _arena: &Arena) -> usize {
    components * 2 * size_of::<u64>()
}

pub unsafe fn partial_door_version() -> u32 {
    crate::VERSION
}

pub unsafe fn partial_door_memory_new(
    _number: u64,
    initial: *const u64,
    components: usize,
    ports: u32,
    arena: &Arena,
    memory: &mut Handle,
) -> u32 {
    // SAFETY: the caller lends so many values.
    let initial = unsafe { from_raw_parts(initial, components) };
    number(match () {
        _ if !memory.is_empty() => Err(HOLDS_ONE),
        _ if !(1..=MOST_PORTS).contains(&ports) => Err(5),
        _ if !(1..=65_536).contains(&components) => Err(1),
        _ if arena.list_words > 65_536 => Err(3),
        _ if !fits(components, ports, arena) => Err(4),
        _ => listed(initial, components)
            .and_then(|values| make(lasting(pool_of(components, ports, arena), ports), values, ports))
            .map(|held| memory.held = held),
    })
}

fn lasting(pool: u64, ports: u32) -> Kind {
    Kind::Lasting { pool, ahead: ahead_of(pool, ports) }
}

/// The first size of an opening that is out of its range.
fn sizes_fit(components: usize, sizes: &Sizes, ports: u32) -> Ended {
    let pool = RECORD * components as u64..=4_194_304;
    match () {
        _ if !(1..=65_536).contains(&components) => Err(1),
        _ if !(1..=65_536).contains(&sizes.slots) => Err(2),
        _ if sizes.list_words > 65_536 => Err(3),
        _ if !pool.contains(&u64::from(sizes.pool_words)) => Err(4),
        _ if !(1..=64).contains(&ports) => Err(5),
        _ => Ok(()),
    }
}

pub unsafe fn partial_door_opening_open(
    _opening: u64,
    initial: *const u64,
    components: usize,
    sizes: &Sizes,
    ports: u32,
    memory: &mut Handle,
) -> u32 {
    // SAFETY: the caller lends so many values.
    let initial = unsafe { from_raw_parts(initial, components) };
    number(match memory.is_empty() {
        false => Err(HOLDS_ONE),
        true => sizes_fit(components, sizes, ports)
            .and_then(|()| make(opening_of(sizes), listed(initial, components)?, ports))
            .map(|held| memory.held = held),
    })
}

fn opening_of(sizes: &Sizes) -> Kind {
    Kind::Opening { pool: u64::from(sizes.pool_words), slots: sizes.slots }
}

pub unsafe fn partial_door_opening_reopen(
    _opening: u64,
    closed: &mut Handle,
    components: u32,
    sizes: &Sizes,
    ports: u32,
    memory: &mut Handle,
) -> u32 {
    if !memory.is_empty() {
        return HOLDS_ONE;
    }
    let Held::Closed(values) = &closed.held else { return HOLDS_NONE };
    let components = components as usize;
    number(sizes_fit(components, sizes, ports).and_then(|()| {
        if values.len() > components {
            return Err(13);
        }
        memory.held = make(opening_of(sizes), listed(values, components)?, ports)?;
        Ok(())
    }))
}

pub unsafe fn partial_door_opening_take_port(memory: &mut Handle, port: &mut Handle) -> u32 {
    if !port.is_empty() {
        return HOLDS_ONE;
    }
    let Held::Memory { table, seats, .. } = &mut memory.held else { return HOLDS_NONE };
    let Some(seat) = seats.pop() else { return NONE_FREE };
    port.held = Held::Port { table: table.clone(), seat };
    FINE
}

pub unsafe fn partial_door_opening_give_port(memory: &mut Handle, port: &mut Handle) -> u32 {
    let Held::Memory { table, seats, .. } = &mut memory.held else { return HOLDS_NONE };
    match take(&mut port.held) {
        Held::Port { table: own, seat } if is_same(&own, table) => {
            // The list has room for all ports.
            seats.push(seat);
            FINE
        }
        held => {
            let code = if matches!(held, Held::Port { .. }) { TWO_MEMORIES } else { HOLDS_NONE };
            port.held = held;
            code
        }
    }
}

/// Whether two references are of one table.
fn is_same(one: &Table, other: &Table) -> bool {
    std::ptr::eq(one, other)
}

/// Takes the values out of a memory to which all ports were returned. The handle is empty then.
fn close(memory: &mut Handle, room: Option<usize>) -> Result<Vec<u64>, u32> {
    let Held::Memory { table, seats, count } = &mut memory.held else { return Err(HOLDS_NONE) };
    if room.is_some_and(|room| room != table.cells().values.len()) {
        return Err(LENGTH);
    }
    if seats.len() < *count as usize {
        return Err(NOT_ALL);
    }
    let values = take(&mut table.cells().values);
    memory.held = Held::Nothing;
    Ok(values)
}

pub unsafe fn partial_door_opening_close(memory: &mut Handle) -> u32 {
    number(close(memory, None).map(|values| memory.held = Held::Closed(values)))
}

pub unsafe fn partial_door_memory_close(memory: &mut Handle, into: *mut u64, room: usize) -> u32 {
    // SAFETY: the caller lends room for so many values.
    let into = unsafe { from_raw_parts_mut(into, room) };
    number(close(memory, Some(room)).map(|values| into.copy_from_slice(&values)))
}

pub unsafe fn partial_door_opening_values(closed: &mut Handle, into: *mut u64, room: usize) -> u32 {
    // SAFETY: the caller lends room for so many values.
    let into = unsafe { from_raw_parts_mut(into, room) };
    match &closed.held {
        Held::Closed(values) if values.len() != room => LENGTH,
        Held::Closed(values) => {
            into.copy_from_slice(values);
            FINE
        }
        _ => HOLDS_NONE,
    }
}

pub unsafe fn partial_door_opening_update(
    port: &mut Handle,
    component: u32,
    value: u64,
    answer: &mut UpdateAnswer,
) -> u32 {
    number(update(port, component, None, value, answer))
}

pub unsafe fn partial_door_opening_update_if(
    port: &mut Handle,
    component: u32,
    expected: u64,
    value: u64,
    answer: &mut UpdateAnswer,
) -> u32 {
    number(update(port, component, Some(expected), value, answer))
}

fn update(port: &mut Handle, component: u32, expected: Option<u64>, value: u64, answer: &mut UpdateAnswer) -> Ended {
    let (table, seat) = port.port()?;
    let mut cells = table.cells();
    let component = component as usize;
    let stamp = *cells.stamps.get(component).ok_or(COMPONENT)?;
    if seat.pool_spent {
        return Err(POOL_SPENT);
    }
    if expected.is_some_and(|expected| expected != stamp) {
        *answer = UpdateAnswer { stamp, applied: 0 };
        return Ok(());
    }
    let stamp = table.take_record(&mut cells, seat)?;
    cells.values[component] = value;
    cells.stamps[component] = stamp;
    *answer = UpdateAnswer { stamp, applied: 1 };
    Ok(())
}

pub unsafe fn partial_door_opening_read(port: &mut Handle, component: u32, answer: &mut ReadAnswer) -> u32 {
    number(port.port().and_then(|(table, _)| {
        let cells = table.cells();
        let component = component as usize;
        let value = *cells.values.get(component).ok_or(COMPONENT)?;
        *answer = ReadAnswer { value, stamp: cells.stamps[component] };
        Ok(())
    }))
}

pub unsafe fn partial_door_opening_scan(
    port: &mut Handle,
    which: *const u32,
    positions: usize,
    into: *mut u64,
    room: usize,
    answer: &mut ScanAnswer,
) -> u32 {
    // SAFETY: the caller lends so many indices, and room for so many values.
    let (which, into) = unsafe { (from_raw_parts(which, positions), from_raw_parts_mut(into, room)) };
    number(scan(port, which, into, None, answer))
}

#[allow(clippy::too_many_arguments)]
pub unsafe fn partial_door_port_scan_stamped(
    port: &mut Handle,
    which: *const u32,
    positions: usize,
    into: *mut u64,
    room: usize,
    stamps: *mut u64,
    count: usize,
    answer: &mut ScanAnswer,
) -> u32 {
    // SAFETY: the caller lends so many indices, and room for so many values and stamps.
    let (which, into, stamps) = unsafe {
        (from_raw_parts(which, positions), from_raw_parts_mut(into, room), from_raw_parts_mut(stamps, count))
    };
    number(scan(port, which, into, Some(stamps), answer))
}

fn scan(
    port: &mut Handle,
    which: &[u32],
    into: &mut [u64],
    stamps: Option<&mut [u64]>,
    answer: &mut ScanAnswer,
) -> Ended {
    let (table, seat) = port.port()?;
    let mut cells = table.cells();
    let m = cells.values.len();
    if which.len() != into.len() || which.len() > m || stamps.as_ref().is_some_and(|to| to.len() != which.len()) {
        return Err(LENGTH);
    }
    if which.iter().any(|&component| component as usize >= m) {
        return Err(COMPONENT);
    }
    if !which.is_empty() {
        table.announce(&mut cells, seat, which.len())?;
    }
    for (value, &component) in into.iter_mut().zip(which) {
        *value = cells.values[component as usize];
    }
    for (stamp, &component) in stamps.into_iter().flatten().zip(which) {
        *stamp = cells.stamps[component as usize];
    }
    *answer = ScanAnswer { stamp: 0, collects: if which.is_empty() { 0 } else { 2 }, borrowed: 0 };
    Ok(())
}

pub unsafe fn partial_door_port_unchanged(
    port: &mut Handle,
    which: *const u32,
    positions: usize,
    stamps: *const u64,
    count: usize,
    answer: &mut u32,
) -> u32 {
    // SAFETY: the caller lends so many indices and stamps.
    let (which, stamps) = unsafe { (from_raw_parts(which, positions), from_raw_parts(stamps, count)) };
    number(port.port().and_then(|(table, _)| {
        if which.len() != stamps.len() {
            return Err(LENGTH);
        }
        let cells = table.cells();
        let has = |(&component, stamp): (&u32, &u64)| cells.stamps.get(component as usize) == Some(stamp);
        *answer = u32::from(which.iter().zip(stamps).all(has));
        Ok(())
    }))
}

pub unsafe fn partial_door_opening_meet(first: &mut Handle, second: &mut Handle) -> u32 {
    number(first.port().and_then(|(one, _)| {
        let (other, _) = second.port()?;
        if is_same(one, other) {
            Ok(())
        } else {
            Err(TWO_MEMORIES)
        }
    }))
}

pub unsafe fn partial_door_opening_state(port: &mut Handle, answer: &mut PortState) -> u32 {
    number(port.port().map(|(_, seat)| {
        *answer = PortState {
            number: seat.number,
            pool_spent: u32::from(seat.pool_spent),
            slots_spent: u32::from(seat.slots_spent),
        };
    }))
}

pub unsafe fn partial_door_port_number(port: &mut Handle, answer: &mut u32) -> u32 {
    number(port.port().map(|(_, seat)| *answer = seat.number))
}

// The calls of a long-lived memory are those of an opening. A handle of the other kind never comes here: the
// crate has types of its own for each.
pub use partial_door_opening_give_port as partial_door_memory_give_port;
pub use partial_door_opening_meet as partial_door_port_meet;
pub use partial_door_opening_read as partial_door_port_read;
pub use partial_door_opening_scan as partial_door_port_scan;
pub use partial_door_opening_take_port as partial_door_memory_take_port;
pub use partial_door_opening_update as partial_door_port_update;
pub use partial_door_opening_update_if as partial_door_port_update_if;
