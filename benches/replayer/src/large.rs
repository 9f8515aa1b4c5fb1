//! Large plans, the same in each run.

use crate::number::push_number;

/// As many bytes as the text of a plan may have.
const MOST_BYTES: usize = 4_194_304;
const POOL_WORDS: u64 = 4_194_304;

/// Numbers that look like chance.
struct Random(u64);

impl Random {
    fn new() -> Random {
        Random(0x9e37_79b9_7f4a_7c15)
    }

    fn below(&mut self, limit: u64) -> u64 {
        self.0 ^= self.0 << 13;
        self.0 ^= self.0 >> 7;
        self.0 ^= self.0 << 17;
        (self.0 >> 11) % limit
    }
}

fn push_words(text: &mut Vec<u8>, word: &str, numbers: &[u64]) {
    text.extend_from_slice(word.as_bytes());
    for &number in numbers {
        text.push(b' ');
        push_number(text, number);
    }
}

fn call(word: &str, numbers: &[u64]) -> Vec<u8> {
    let mut text = Vec::new();
    push_words(&mut text, word, numbers);
    text
}

/// The first two lines.
fn head(components: u64, slots: u64, list_words: u64) -> Vec<u8> {
    let mut text = call("sizes", &[components, slots, list_words, POOL_WORDS]);
    let initial: Vec<u64> = (1000..1000 + components).collect();
    push_words(&mut text, "\ninitial", &initial);
    text.push(b'\n');
    text
}

fn push_ports(text: &mut Vec<u8>, ports: &[Vec<Vec<u8>>]) {
    for calls in ports {
        text.extend_from_slice(b"port");
        for (number, call) in calls.iter().enumerate() {
            text.extend_from_slice(if number == 0 { b" " } else { b"; " });
            text.extend_from_slice(call);
        }
        text.push(b'\n');
    }
}

/// Updates and reads of 64 ports that take turns step by step. Nobody scans, so an update makes 8 steps and a
/// read 2, and the turns finish every call.
pub fn updates() -> Vec<u8> {
    let mut random = Random::new();
    let mut text = head(256, 1, 0);
    let mut ports = vec![Vec::new(); 64];
    let mut steps = [0; 64];
    let mut used = text.len() + 64 * "port \n".len() + "steps\n".len();
    for port in (0..64).cycle() {
        let component = random.below(256);
        let (call, count) = match random.below(10) {
            0..6 => (call("update", &[component, random.below(1 << 40)]), 8),
            _ => (call("read", &[component]), 2),
        };
        let turn = if port < 10 { " 1*1".len() } else { " 10*1".len() };
        used += call.len() + "; ".len() + count * turn;
        if used > MOST_BYTES {
            break;
        }
        steps[port] += count;
        ports[port].push(call);
    }
    push_ports(&mut text, &ports);
    push_turns(&mut text, steps);
    text
}

/// A turn of each port in order, over and over, until each has had as many as it makes steps.
fn push_turns(text: &mut Vec<u8>, mut steps: [usize; 64]) {
    text.extend_from_slice(b"steps");
    while steps.iter().any(|&left| left > 0) {
        for (port, left) in steps.iter_mut().enumerate().filter(|(_, left)| **left > 0) {
            text.push(b' ');
            push_number(text, port as u64);
            text.extend_from_slice(b"*1");
            *left -= 1;
        }
    }
    text.push(b'\n');
}

/// All kinds of calls by 8 ports, of which the first ones are interleaved: a scan that others see makes
/// their updates longer. Of each port's calls 12 are scans, then 24 others, and so on, so that few updates
/// find slots newly vacated and the list words last.
pub fn scans() -> Vec<u8> {
    let mut random = Random::new();
    let mut text = head(64, 65_536, 65_536);
    let turns = some_turns(&mut random);
    let mut ports = vec![Vec::new(); 8];
    let mut used = text.len() + turns.len() + 8 * "port \n".len();
    let mut scans = 0;
    for port in (0..8).cycle() {
        let calls: &mut Vec<Vec<u8>> = &mut ports[port];
        let scanning = calls.len() % 36 < 12 && scans < 65_000;
        scans += usize::from(scanning);
        let call = if scanning { scan(&mut random) } else { other(&mut random) };
        used += call.len() + "; ".len();
        if used > MOST_BYTES {
            break;
        }
        calls.push(call);
    }
    push_ports(&mut text, &ports);
    text.extend_from_slice(&turns);
    text
}

fn some_turns(random: &mut Random) -> Vec<u8> {
    let mut turns = b"steps".to_vec();
    for _ in 0..12_000 {
        turns.push(b' ');
        push_number(&mut turns, random.below(8));
        turns.push(b'*');
        push_number(&mut turns, 1 + random.below(12));
    }
    turns.extend_from_slice(b" rest\n");
    turns
}

fn scan(random: &mut Random) -> Vec<u8> {
    let count = 1 + random.below(8);
    let positions: Vec<u64> = (0..count).map(|_| random.below(64)).collect();
    call("scan", &positions)
}

fn other(random: &mut Random) -> Vec<u8> {
    let component = random.below(64);
    match random.below(100) {
        0..80 => call("update", &[component, random.below(1 << 40)]),
        80..90 => call("read", &[component]),
        _ => call("updateif", &[component, 18 + random.below(1 << 20), random.below(1 << 40)]),
    }
}

/// Scans of one port, and after them updates of another one, each of which walks all the slots that the
/// scans have left, since there are no list words: many steps for few bytes.
pub fn walk() -> Vec<u8> {
    let mut random = Random::new();
    let mut text = head(64, 8192, 0);
    let scans = (0..8192).map(|_| call("scan", &[random.below(64)])).collect();
    let updates = (0..2000).map(|value| call("update", &[random.below(64), value])).collect();
    push_ports(&mut text, &[scans, updates]);
    text.extend_from_slice(b"steps rest\n");
    text
}
