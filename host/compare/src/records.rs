//! Random records: short and long, readable and damaged, sound and not, and the limits.

use reference::{DEPTH_LIMIT, NODE_LIMIT};

use crate::numbers::Random;
use crate::shapes::{balanced, crossing, CHOICE, PARALLEL};

/// Keys at the edges of their two bytes.
pub const EDGE_KEYS: [u16; 9] = [1, 2, 255, 256, 257, 32767, 32768, 65534, 65535];

/// What a random term is made of.
struct Style {
    /// Weights of prefix, choice, parallel, restriction.
    weights: [usize; 4],
    /// Names go from 1 to this.
    names: usize,
    /// How many of a hundred prefixes are tau, and how many hold a key.
    tau: usize,
    done: usize,
    /// Keys go from 1 to this; now and then one of the edges.
    keys: usize,
}

impl Style {
    fn random(random: &mut Random, done: usize) -> Style {
        let weights =
            random.pick(&[[5, 1, 4, 1], [6, 0, 3, 0], [4, 3, 3, 1], [8, 1, 1, 1], [3, 0, 6, 2], [2, 6, 2, 1]]);
        let names = random.pick(&[1, 1, 2, 2, 3, 127]);
        Style { weights, names, tau: random.pick(&[0, 5, 30]), done, keys: random.pick(&[2, 4, 12, 40, 65535]) }
    }

    fn key(&self, random: &mut Random) -> u16 {
        match random.percent(10) {
            true => random.pick(&EDGE_KEYS),
            false => 1 + random.below(self.keys) as u16,
        }
    }

    /// Appends a term of `size` nodes, no deeper than `room`; a smaller one if there is no room at all.
    fn term(&self, random: &mut Random, size: usize, room: usize, bytes: &mut Vec<u8>) {
        if size <= 1 || room <= 1 {
            return bytes.push(0);
        }
        // A term that is large for the room left has to branch in the middle; one of two nodes cannot branch.
        let tight = size > room / 2 && size > 2;
        let kind = match (tight, size) {
            (true, _) => random.pick(&[2, 3, 3, 3]),
            (false, 2) => random.pick(&[1, 1, 1, 4]),
            _ => self.kind(random),
        };
        bytes.push(kind);
        match kind {
            1 => {
                bytes.push(self.action(random));
                let key = if random.percent(self.done) { self.key(random) } else { 0 };
                bytes.extend(key.to_be_bytes());
                self.term(random, size - 1, room - 1, bytes);
            }
            4 => {
                bytes.push(1 + random.below(self.names) as u8);
                self.term(random, size - 1, room - 1, bytes);
            }
            _ => {
                let left = if tight { size / 2 } else { 1 + random.below(size - 2) };
                self.term(random, left, room - 1, bytes);
                self.term(random, size - 1 - left, room - 1, bytes);
            }
        }
    }

    fn kind(&self, random: &mut Random) -> u8 {
        let mut at = random.below(self.weights.iter().sum());
        for (kind, weight) in (1..).zip(self.weights) {
            if at < weight {
                return kind;
            }
            at -= weight;
        }
        unreachable!("the weights sum up to more")
    }

    fn action(&self, random: &mut Random) -> u8 {
        if random.percent(self.tau) {
            return 0;
        }
        1 + random.below(self.names) as u8 + 128 * random.below(2) as u8
    }
}

fn size(random: &mut Random) -> usize {
    match random.below(1000) {
        0..=599 => 1 + random.below(14),
        600..=899 => 10 + random.below(60),
        900..=989 => 60 + random.below(400),
        990..=995 => 400 + random.below(3000),
        _ => NODE_LIMIT - 2 + random.below(4),
    }
}

/// A random term with keys put at random prefixes: seldom sound.
fn scattered(random: &mut Random) -> Vec<u8> {
    let done = random.pick(&[0, 10, 50, 90, 100]);
    let style = Style::random(random, done);
    let mut bytes = Vec::new();
    let size = size(random);
    style.term(random, size, DEPTH_LIMIT, &mut bytes);
    bytes
}

/// A blank term grown by random allowed forward steps: always sound.
pub fn sound(random: &mut Random) -> Vec<u8> {
    let style = Style::random(random, 0);
    let mut bytes = Vec::new();
    let size = size(random);
    style.term(random, size, DEPTH_LIMIT, &mut bytes);
    let rounds = if size > 400 { 3 } else { 1 + random.below(12) };
    for _ in 0..rounds {
        let mut steps = Vec::new();
        if reference::for_each_step(&bytes, |p, q, _| steps.push((p, q))).is_err() || steps.is_empty() {
            break;
        }
        // A step taken may shut out others of the same round: those are refused and change nothing.
        for _ in 0..1 + random.below(steps.len().min(40)) {
            let (p, q) = random.pick(&steps);
            let key = if random.percent(50) { reference::least_free(&bytes).unwrap() } else { style.key(random) };
            let _ = reference::forward(&mut bytes, p, q, key);
        }
    }
    bytes
}

/// Where the keys of a readable record stand: the offset of their high bytes.
fn key_offsets(bytes: &[u8]) -> Vec<usize> {
    let nodes = reference::walk(bytes).unwrap_or_default();
    nodes.iter().filter(|node| node.kind == 1).map(|node| node.offset + 2).collect()
}

/// Changes a key or two, exchanges keys or actions of two prefixes: near to sound.
fn disturb(random: &mut Random, bytes: &mut [u8]) {
    let offsets = key_offsets(bytes);
    if offsets.is_empty() {
        return;
    }
    let (one, other) = (random.pick(&offsets), random.pick(&offsets));
    match random.below(5) {
        0 => bytes[one..one + 2].copy_from_slice(&random.pick(&EDGE_KEYS).to_be_bytes()),
        1 => bytes[one..one + 2].copy_from_slice(&[0, 0]),
        2 => bytes.copy_within(other..other + 2, one),
        3 => (0..2).for_each(|i| bytes.swap(one + i, other + i)),
        _ => bytes.swap(one - 1, other - 1),
    }
}

/// Cuts, lengthens or spoils the bytes.
fn damage(random: &mut Random, bytes: &mut Vec<u8>) {
    match random.below(4) {
        0 => bytes.truncate(random.below(bytes.len() + 1)),
        1 => (0..1 + random.below(3)).for_each(|_| bytes.push(random.next() as u8)),
        2 if !bytes.is_empty() => {
            let at = random.below(bytes.len());
            bytes[at] = random.pick(&[0, 1, 2, 3, 4, 5, 127, 128, 129, 255]);
        }
        _ => *bytes = (0..random.below(24)).map(|_| random.pick(&[0, 0, 1, 1, 2, 3, 4, 5, 128, 129])).collect(),
    }
}

/// A chain of prefixes and restrictions about as deep as is allowed, alone or beside something.
fn deep(random: &mut Random) -> Vec<u8> {
    let mut bytes = Vec::new();
    let depth = DEPTH_LIMIT - 3 + random.below(5);
    let done = random.below(depth + 1);
    for level in 1..depth {
        match random.below(8) {
            0 => bytes.extend([4, 1 + random.below(3) as u8]),
            1 => bytes.extend([3, 0]),
            _ => {
                let key = if level <= done { level as u16 } else { 0 };
                bytes.extend([1, random.pick(&[1, 2, 129, 130, 0]), (key >> 8) as u8, key as u8]);
            }
        }
    }
    bytes.push(0);
    bytes
}

/// Chains of done prefixes side by side that share every key, in any order: each key well paired, often in a circle.
fn crossed(random: &mut Random) -> Vec<u8> {
    let chains = 2 + random.below(4);
    let orders = random.percent(50);
    let mut parts = vec![Vec::new(); chains];
    for key in 1..2 + random.below(9) as u16 {
        let one = random.below(chains);
        let other = (one + 1 + random.below(chains - 1)) % chains;
        let action = 1 + random.below(3) as u8;
        for (chain, action) in [(one.min(other), action), (one.max(other), action ^ 128)] {
            let at = if orders { random.below(parts[chain].len() + 1) } else { parts[chain].len() };
            parts[chain].insert(at, [1, action, (key >> 8) as u8, key as u8]);
        }
    }
    let mut bytes = if random.percent(30) { vec![4, 1 + random.below(3) as u8] } else { Vec::new() };
    for (chain, steps) in parts.iter().enumerate() {
        if chain + 1 < chains {
            bytes.push(3);
        }
        bytes.extend(steps.concat());
        // What is still to be done.
        bytes.extend(if random.percent(50) { vec![1, 1, 0, 0, 0] } else { vec![0] });
    }
    bytes
}

/// Keys in any order of their numbers: one after the other, or such as leave the same remainder by 4,096 or 8,192.
/// After 65535 they start over; 0 is no key and is left out.
fn keys_in_any_order(random: &mut Random, count: usize) -> Vec<u16> {
    let (first, apart) = (random.pick(&[1, 1, 4090, 65535 - count]), random.pick(&[1, 1, 4096, 8192]));
    let round = (1 << 16) / apart;
    let number = |at: usize| (first + at % round * apart + at / round) as u16;
    let mut keys: Vec<u16> = (0..count).map(number).filter(|&key| key != 0).collect();
    match random.below(6) {
        0 => keys.reverse(),
        1 | 2 => random.shuffle(&mut keys),
        3 => keys.fill(first as u16),
        _ => (),
    }
    keys
}

/// A chain of keys that crosses from part to part, now and then closed to a ring, the parts in order or not.
fn chained(random: &mut Random) -> Vec<u8> {
    let count = 2 + size(random).min(NODE_LIMIT - 8) / 4;
    let mut keys = keys_in_any_order(random, count);
    if random.percent(25) {
        keys.push(keys[0]);
    }
    let mut parts = crossing(&keys, random.pick(&[2, 2, 3, 9]));
    if random.percent(50) {
        random.shuffle(&mut parts);
    }
    balanced(PARALLEL, &parts)
}

/// A term of prefixes and parallels, every prefix done with a key of its own, in any order: much stands on one key.
pub fn all_done(random: &mut Random) -> Vec<u8> {
    let weights = random.pick(&[[5, 0, 4, 0], [3, 0, 6, 0], [8, 0, 1, 0]]);
    let style = Style { weights, names: 3, tau: 5, done: 100, keys: 1 };
    let mut bytes = Vec::new();
    let size = size(random);
    style.term(random, size, DEPTH_LIMIT, &mut bytes);
    // A large term has choices as well, and only one side of a choice can be done.
    let nodes = reference::walk(&bytes).unwrap_or_default();
    let choices: Vec<usize> = nodes.iter().filter(|node| node.kind == CHOICE).map(|node| node.offset).collect();
    choices.into_iter().for_each(|at| bytes[at] = PARALLEL);
    let places = key_offsets(&bytes);
    for (at, key) in places.iter().zip(keys_in_any_order(random, places.len())) {
        bytes[*at..at + 2].copy_from_slice(&key.to_be_bytes());
    }
    bytes
}

/// For each condition of soundness a record that fails it and no other (01, Examples on both sides). The keys are 1 and 2.
const FAULTS: [&[u8]; 7] = [
    &[1, 1, 0, 0, 1, 2, 0, 1, 0],
    &[2, 1, 1, 0, 1, 0, 1, 2, 0, 2, 0],
    &[3, 1, 1, 0, 1, 0, 3, 1, 1, 0, 1, 0, 1, 129, 0, 1, 0],
    &[3, 1, 1, 0, 1, 0, 1, 1, 0, 1, 0],
    &[1, 1, 0, 1, 1, 129, 0, 1, 0],
    &[4, 1, 1, 1, 0, 1, 0],
    &[3, 1, 1, 0, 1, 1, 2, 0, 2, 0, 1, 130, 0, 2, 1, 129, 0, 1, 0],
];

/// Two or three faults side by side, each with keys of its own: any two conditions fail at once.
fn faults(random: &mut Random) -> Vec<u8> {
    let count = 2 + random.below(2);
    let mut bytes = vec![3; count - 1];
    for part in 0..count as u8 {
        let mut fault = random.pick(&FAULTS).to_vec();
        for at in key_offsets(&fault) {
            if fault[at + 1] != 0 {
                fault[at + 1] += 2 * part;
            }
        }
        bytes.extend(fault);
    }
    bytes
}

/// A record of any of these sorts.
pub fn any(random: &mut Random) -> Vec<u8> {
    let mut bytes = match random.below(100) {
        0..=24 => scattered(random),
        25..=44 => crossed(random),
        45..=73 => sound(random),
        74..=79 => all_done(random),
        80..=91 => chained(random),
        92..=96 => faults(random),
        _ => deep(random),
    };
    match random.below(10) {
        0 => damage(random, &mut bytes),
        1..=4 => (0..1 + random.below(3)).for_each(|_| disturb(random, &mut bytes)),
        _ => (),
    }
    bytes
}
