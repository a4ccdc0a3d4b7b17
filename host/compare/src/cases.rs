//! Which calls are made on a record: every operation, with numbers on both sides of what is allowed.

use crate::call::{Call, Side};
use crate::numbers::Random;
use crate::records::EDGE_KEYS;

/// One call of each operation.
pub const ONE_OF_EACH: [Call; 12] = [
    Call::Read,
    Call::Forward { p: 0, q: 0, key: 1 },
    Call::Undo { key: 1 },
    Call::First { p: 0, q: 0 },
    Call::Count,
    Call::LeastFree,
    Call::UndoListing { row: 4096, fill: 0 },
    Call::Waiting { key: 1, row: 4096, fill: 0 },
    Call::Blank,
    Call::Verdict,
    Call::Node { n: 0 },
    Call::TakeBack { key: 1, row: 4096, fill: 0 },
];

/// The distinct keys of a record in order of appearance; none of a record that is refused.
pub fn keys(record: &[u8]) -> Vec<u16> {
    let mut seen = std::collections::HashSet::new();
    let nodes = reference::walk(record).unwrap_or_default();
    nodes.iter().map(|node| node.key()).filter(|&key| key != 0 && seen.insert(key)).collect()
}

/// Keys that chains are followed from: the first that the record shows and the last, since a chain begins at the one or
/// at the other, and the one with the longest waiting list. Without any key it is 1 each time.
pub fn chain_keys(record: &[u8]) -> [u16; 3] {
    let keys = keys(record);
    let waiting = |key: u16| reference::waiting(record, key, &mut [0; 4096]);
    let longest = keys.iter().max_by_key(|&&key| waiting(key));
    [keys.first(), keys.last(), longest].map(|key| key.copied().unwrap_or(1))
}

/// The calls for one record.
pub fn calls(random: &mut Random, record: &[u8]) -> Vec<Call> {
    let mut calls = ONE_OF_EACH.to_vec();
    let keys = keys(record);
    let nodes = reference::read(record).unwrap_or(9);
    let any_key = |random: &mut Random| match random.below(3) {
        0 => random.pick(&EDGE_KEYS),
        // At times another key with the same remainder by 4,096, which may stand nowhere.
        1 if !keys.is_empty() => random.pick(&keys).wrapping_add(random.pick(&[0, 0, 0, 4096, 8192])),
        _ => random.below(nodes + 2) as u16,
    };
    let any_place = |random: &mut Random| match random.below(20) {
        0 => random.next() as u16,
        1 => 65535,
        _ => random.below(nodes + 1) as u16,
    };
    for _ in 0..4 {
        let (p, q) = (any_place(random), any_place(random));
        calls.push(Call::First { p, q: if random.percent(30) { 0 } else { q } });
        calls.push(Call::Forward { p, q: if random.percent(30) { 0 } else { q }, key: any_key(random) });
    }
    calls.push(Call::First { p: 65535, q: 65535 });
    // Two nodes anywhere, the last one, and past it.
    let last = nodes as u16 - 1;
    calls.extend([any_place(random), any_place(random), last, last + 1].map(|n| Call::Node { n }));
    steps(random, record, &mut calls, any_key);
    let first = keys.first().copied().unwrap_or(1);
    for key in [0, first, any_key(random), any_key(random), any_key(random)] {
        calls.push(Call::Undo { key });
        calls.extend(rows(record, |row, fill| Call::Waiting { key, row, fill }));
        calls.extend(rows(record, |row, fill| Call::TakeBack { key, row, fill }));
    }
    calls.extend(rows(record, |row, fill| Call::UndoListing { row, fill }));
    calls
}

/// The first forward steps and some later ones: asked for, taken, and taken with keys that may stand.
fn steps(random: &mut Random, record: &[u8], calls: &mut Vec<Call>, any_key: impl Fn(&mut Random) -> u16) {
    let mut steps = Vec::new();
    let _ = reference::for_each_step(record, |p, q, _| steps.push((p, q)));
    let least = reference::least_free(record).unwrap_or(1);
    for i in 0..steps.len().min(4) {
        let (p, q) = steps[if i == 0 { 0 } else { random.below(steps.len()) }];
        calls.push(Call::First { p, q });
        calls.push(Call::First { p, q: q + 1 });
        calls.push(Call::Forward { p, q, key: least });
        calls.push(Call::Forward { p, q, key: any_key(random) });
        calls.push(Call::Forward { p, q: 0, key: least });
        calls.push(Call::Forward { p: q, q: p, key: least });
    }
    if let Some(&(p, q)) = steps.last() {
        calls.push(Call::First { p, q: q + 1 });
        calls.push(Call::Forward { p, q, key: 65535 });
    }
}

/// The call with rows of length 0, one too short, exact and longer.
fn rows(record: &[u8], call: impl Fn(usize, u16) -> Call) -> [Call; 4] {
    let whole = Side::Reference.run(&call(4096, 0), record).expect("the reference has every operation");
    let count = whole.listed().len();
    [(0, 0), (count.saturating_sub(1), 77), (count, 65535), (count + 3, 4660)].map(|(row, fill)| call(row, fill))
}
