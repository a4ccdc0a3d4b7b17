//! Records of a given size in the shapes that are hard for one or another way of looking at a term.

use crate::numbers::Random;

/// The name of a shape and how to build a record of that shape with about so many nodes, at most so many.
pub type Shape = (&'static str, fn(usize) -> Vec<u8>);

pub const SHAPES: [Shape; 14] = [
    ("comb, blank", |nodes| comb(nodes, false)),
    ("comb, done", |nodes| comb(nodes, true)),
    ("deep prefixes, half done", deep),
    ("balanced, half done", balanced_half),
    ("choices, blank", |nodes| choices(nodes, false)),
    ("choices, done", |nodes| choices(nodes, true)),
    ("one hidden choice, blank", hidden_choice),
    ("own restrictions, blank", own_restrictions),
    ("hidden apart, blank", hidden_apart),
    ("half a, half a', blank", |nodes| halves(nodes, false)),
    ("half a, half a', joined", |nodes| halves(nodes, true)),
    ("pairs of long chains", chain_pairs),
    ("causal chain", |nodes| chain(nodes, 2, ascending)),
    ("causal chain, backwards", backwards),
];

/// More shapes for what follows chains alone: long lists, rings, keys that share a drawer, and much that stands on one
/// key in every order of the keys' numbers.
pub const CHAINS: [Shape; 20] = [
    ("chain, keys descending", |nodes| chain(nodes, 2, descending)),
    ("chain, keys shuffled", |nodes| chain(nodes, 2, shuffled)),
    ("chain, keys far apart", |nodes| chain(nodes, 2, far_apart)),
    ("chain, keys in zigzag", |nodes| chain(nodes, 2, zigzag)),
    ("chain, 32 keys a part", |nodes| chain(nodes, 32, shuffled)),
    ("ring", |nodes| chain(nodes, 32, |keys| keys[keys.len() - 1] = keys[0])),
    ("one key in every place", |nodes| chain(nodes, 32, |keys| keys.fill(7))),
    ("16 keys equal mod 4,096", |nodes| {
        chain(nodes, 32, |keys| keys.iter_mut().for_each(|key| *key = 4096 * (*key % 16) + 7))
    }),
    // The library files what stands below a key in one of 4,096 drawers, and these 16 keys share one: its worst case.
    ("16 keys of one drawer", |nodes| {
        chain(nodes, 32, |keys| keys.iter_mut().for_each(|key| *key = 4096 * (*key % 16) + 4095 - 257 * (*key % 16)))
    }),
    ("one key above all others", |nodes| fan(nodes, ascending)),
    ("fan, keys descending", |nodes| fan(nodes, descending)),
    ("fan, keys shuffled", |nodes| fan(nodes, shuffled)),
    ("fan, keys far apart", |nodes| fan(nodes, far_apart)),
    ("fan of joined steps", |nodes| joined_fan(nodes, shuffled)),
    ("fan of chains, ascending", |nodes| fan_of_chains(nodes, ascending)),
    ("fan of chains, descending", |nodes| fan_of_chains(nodes, descending)),
    ("fan of chains, shuffled", |nodes| fan_of_chains(nodes, shuffled)),
    ("fan of chains, far apart", |nodes| fan_of_chains(nodes, far_apart)),
    ("tree of keys, ascending", |nodes| tree(nodes, ascending)),
    ("tree of keys, shuffled", |nodes| tree(nodes, shuffled)),
];

pub const CHOICE: u8 = 2;
pub const PARALLEL: u8 = 3;

fn prefix(action: u8, key: usize, rest: Vec<u8>) -> Vec<u8> {
    let mut bytes = vec![1, action, (key >> 8) as u8, key as u8];
    bytes.extend(rest);
    bytes
}

fn nil() -> Vec<u8> {
    vec![0]
}

fn both(kind: u8, left: &[u8], right: &[u8]) -> Vec<u8> {
    [&[kind], left, right].concat()
}

fn restriction(name: u8, rest: Vec<u8>) -> Vec<u8> {
    [&[4, name], rest.as_slice()].concat()
}

/// All parts under a balanced tree of this kind.
pub fn balanced(kind: u8, parts: &[Vec<u8>]) -> Vec<u8> {
    match parts {
        [part] => part.clone(),
        _ => {
            let (left, right) = parts.split_at(parts.len() / 2);
            both(kind, &balanced(kind, left), &balanced(kind, right))
        }
    }
}

/// p1 | (p2 | (p3 | ..)).
fn right_comb(parts: &[Vec<u8>]) -> Vec<u8> {
    let mut parts = parts.iter().rev();
    let last = parts.next().expect("at least one part").clone();
    parts.fold(last, |rest, part| both(PARALLEL, part, &rest))
}

fn name(i: usize) -> u8 {
    1 + (i % 127) as u8
}

/// A right comb of parallels; past the depth limit, a comb of combs.
fn comb(nodes: usize, done: bool) -> Vec<u8> {
    let leaves: Vec<Vec<u8>> = (1..=nodes / 3).map(|i| prefix(name(i), if done { i } else { 0 }, nil())).collect();
    let combs: Vec<Vec<u8>> = leaves.chunks(leaves.len().div_ceil(200)).map(right_comb).collect();
    right_comb(&combs)
}

/// Chains of 200 prefixes side by side, the upper half of each done.
fn deep(nodes: usize) -> Vec<u8> {
    let chains: Vec<Vec<u8>> = (0..(nodes / 202).max(1))
        .map(|i| {
            (0..200).rev().fold(nil(), |rest, at| prefix(name(i), if at < 100 { i * 100 + at + 1 } else { 0 }, rest))
        })
        .collect();
    balanced(PARALLEL, &chains)
}

/// A balanced tree of parallels, every other leaf done.
fn balanced_half(nodes: usize) -> Vec<u8> {
    let leaves: Vec<Vec<u8>> =
        (1..=nodes / 3).map(|i| prefix(name(i), if i % 2 == 0 { i } else { 0 }, nil())).collect();
    balanced(PARALLEL, &leaves)
}

/// Choices of eight side by side, names and co-names in turn; done: the last of each eight.
fn choices(nodes: usize, done: bool) -> Vec<u8> {
    let eight = |i: usize| {
        let leaf = |j: usize| {
            let action = 1 + (j % 2) as u8 * 128;
            prefix(action, if done && j == 7 { i + 1 } else { 0 }, nil())
        };
        balanced(CHOICE, &(0..8).map(leaf).collect::<Vec<_>>())
    };
    balanced(PARALLEL, &(0..nodes / 24).map(eight).collect::<Vec<_>>())
}

/// Complementary prefixes side by side, each under a restriction of its own: no step at all.
fn own_restrictions(nodes: usize) -> Vec<u8> {
    let part = |i: usize| restriction(1, prefix(1 + (i % 2) as u8 * 128, 0, nil()));
    balanced(PARALLEL, &(0..nodes / 4).map(part).collect::<Vec<_>>())
}

/// A single choice of many a and a' under a restriction on a: every pair is complementary and none can join.
fn hidden_choice(nodes: usize) -> Vec<u8> {
    let leaf = |i: usize| prefix(1 + (i % 2) as u8 * 128, 0, nil());
    restriction(1, balanced(CHOICE, &(0..nodes / 3).map(leaf).collect::<Vec<_>>()))
}

/// All a on the left under an outer restriction, all a' on the right each under one more of its own: no step at all.
fn hidden_apart(nodes: usize) -> Vec<u8> {
    let open = |_| prefix(1, 0, nil());
    let shut = |_| restriction(1, prefix(129, 0, nil()));
    let left = balanced(PARALLEL, &(0..nodes / 7).map(open).collect::<Vec<_>>());
    let right = balanced(PARALLEL, &(0..nodes / 7).map(shut).collect::<Vec<_>>());
    restriction(1, both(PARALLEL, &left, &right))
}

/// All a on the left, all a' on the right; joined: the i-th with the i-th.
fn halves(nodes: usize, joined: bool) -> Vec<u8> {
    let half = |action: u8| {
        let leaf = |i: usize| prefix(action, if joined { i } else { 0 }, nil());
        balanced(PARALLEL, &(1..=nodes / 6).map(leaf).collect::<Vec<_>>())
    };
    both(PARALLEL, &half(1), &half(129))
}

/// Two chains of 200 prefixes that made all their steps together, and so on.
fn chain_pairs(nodes: usize) -> Vec<u8> {
    let length = 200.min(nodes / 2 - 2);
    let pair = |i: usize| {
        let chain = |action: u8| (1..=length).rev().fold(nil(), |rest, at| prefix(action, i * length + at, rest));
        both(PARALLEL, &chain(1), &chain(129))
    };
    balanced(PARALLEL, &(0..(nodes / (2 * length + 4)).max(1)).map(pair).collect::<Vec<_>>())
}

/// Each key above the next one, so many in a part; the last of a part is the first of the next. With two in a part:
/// a'[k1].b[k2].0, b'[k2].a[k3].0 and so on.
pub fn crossing(keys: &[u16], length: usize) -> Vec<Vec<u8>> {
    let channel = |key: u16| 1 + (key % 2) as u8;
    let part = |from: usize| {
        let upper = keys[from];
        let lower = keys[from + 1..].iter().take(length - 1).rev();
        let rest = lower.fold(nil(), |rest, &key| prefix(channel(key), key.into(), rest));
        prefix(channel(upper) + 128, upper.into(), rest)
    };
    (0..keys.len() - 1).step_by(length - 1).map(part).collect()
}

/// The parts of a chain of so many nodes that crosses from part to part.
fn chain_parts(nodes: usize, length: usize, change: fn(&mut [u16])) -> Vec<Vec<u8>> {
    crossing(&keys_in_order(nodes / (length + 2) * (length - 1) + 1, change), length)
}

fn chain(nodes: usize, length: usize, change: fn(&mut [u16])) -> Vec<u8> {
    balanced(PARALLEL, &chain_parts(nodes, length, change))
}

/// The first part of the chain at the end of the record.
fn backwards(nodes: usize) -> Vec<u8> {
    let mut parts = chain_parts(nodes, 2, ascending);
    parts.reverse();
    balanced(PARALLEL, &parts)
}

/// The keys 1, 2, 3 and so on, or what is made of them.
fn keys_in_order(count: usize, change: fn(&mut [u16])) -> Vec<u16> {
    let mut keys: Vec<u16> = (1..).take(count).collect();
    change(&mut keys);
    keys
}

fn ascending(_: &mut [u16]) {}

fn descending(keys: &mut [u16]) {
    keys.reverse();
}

fn shuffled(keys: &mut [u16]) {
    Random(1).shuffle(keys);
}

/// Spread over all 16-bit numbers, in no order.
fn far_apart(keys: &mut [u16]) {
    let apart = u16::MAX / keys.len() as u16;
    keys.iter_mut().for_each(|key| *key *= apart);
    shuffled(keys);
}

/// The least, the greatest, the second least, the second greatest and so on.
fn zigzag(keys: &mut [u16]) {
    let ascending = keys.to_vec();
    let (mut least, mut greatest) = (ascending.iter(), ascending.iter().rev());
    for (at, key) in keys.iter_mut().enumerate() {
        let next = if at % 2 == 0 { least.next() } else { greatest.next() };
        *key = *next.expect("each has as many");
    }
}

/// Prefixes with these keys side by side.
fn side_by_side(co_names: u8, keys: &[u16]) -> Vec<u8> {
    let leaf = |(i, &key): (usize, &u16)| prefix(name(i) + co_names, key.into(), nil());
    balanced(PARALLEL, &keys.iter().enumerate().map(leaf).collect::<Vec<_>>())
}

/// One key above all others, which stand side by side.
fn fan(nodes: usize, change: fn(&mut [u16])) -> Vec<u8> {
    let keys = keys_in_order(nodes / 3, change);
    prefix(1, keys[0].into(), side_by_side(0, &keys[1..]))
}

/// Two fans that made all their steps together.
fn joined_fan(nodes: usize, change: fn(&mut [u16])) -> Vec<u8> {
    let keys = keys_in_order(nodes / 6, change);
    let half = |co_names: u8| prefix(1 + co_names, keys[0].into(), side_by_side(co_names, &keys[1..]));
    both(PARALLEL, &half(0), &half(128))
}

/// One key above chains of up to 240 prefixes.
fn fan_of_chains(nodes: usize, change: fn(&mut [u16])) -> Vec<u8> {
    let length = 240.min(nodes / 4);
    let keys = keys_in_order((nodes - 1) / (length + 2) * length + 1, change);
    let chain = |keys: &[u16]| keys.iter().rev().fold(nil(), |rest, &key| prefix(1, key.into(), rest));
    prefix(1, keys[0].into(), balanced(PARALLEL, &keys[1..].chunks(length).map(chain).collect::<Vec<_>>()))
}

/// Each key above two others.
fn tree(nodes: usize, change: fn(&mut [u16])) -> Vec<u8> {
    fn from(keys: &[u16], at: usize) -> Vec<u8> {
        let Some(&key) = keys.get(at) else { return nil() };
        let rest = match 2 * at + 1 {
            below if below < keys.len() => both(PARALLEL, &from(keys, below), &from(keys, below + 1)),
            _ => nil(),
        };
        prefix(1, key.into(), rest)
    }
    from(&keys_in_order((nodes - 1) / 2, change), 0)
}
