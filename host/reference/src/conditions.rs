//! Each condition of soundness asked by itself (01, Soundness), whichever other fails: to sort records, not to be fast.

use std::collections::BTreeMap;

use crate::record::{CHOICE, PARALLEL, PREFIX, RESTRICTION};
use crate::tree::Tree;
use crate::{complement, name, Refusal};

/// Which of the conditions 1 to 7 fail.
pub fn failing(record: &[u8]) -> Result<[bool; 7], Refusal> {
    let tree = Tree::read(record)?;
    let numbers = || 0..tree.nodes.len() as u16;
    let (kind, action) = (|i: u16| tree.node(i).kind, |i: u16| tree.node(i).action);
    // The places of each key, ascending.
    let mut places: BTreeMap<u16, Vec<u16>> = BTreeMap::new();
    for place in numbers().filter(|&i| tree.node(i).key != 0) {
        places.entry(tree.node(place).key).or_default().push(place);
    }
    let twice = || places.values().filter(|places| places.len() == 2).map(|places| (places[0], places[1]));
    let stands_twice_below = |restriction: u16, key: u16| {
        let below = |&&place: &&u16| restriction < place && place < tree.node(restriction).end;
        places[&key].iter().filter(below).count() == 2
    };
    let opened = |restriction: u16| {
        (restriction + 1..tree.node(restriction).end).any(|i| {
            let key = tree.node(i).key;
            key != 0 && name(action(i)) == action(restriction) && !stands_twice_below(restriction, key)
        })
    };
    Ok([
        numbers().any(|i| kind(i) == PREFIX && tree.node(i).key == 0 && tree.key_below(i)),
        numbers().any(|i| kind(i) == CHOICE && tree.both_sides_hold(i)),
        places.values().any(|places| places.len() > 2),
        twice().any(|(p, q)| complement(action(p)) != Some(action(q))),
        twice().any(|(p, q)| kind(tree.meet(p, q)) != PARALLEL),
        numbers().any(|i| kind(i) == RESTRICTION && opened(i)),
        circle(&tree, &places),
    ])
}

/// Takes away keys that stand below no other key that is left, until there are none; what is left is in or below a circle.
fn circle(tree: &Tree, places: &BTreeMap<u16, Vec<u16>>) -> bool {
    // The nearest other keys above each key: those further up stand above these.
    let mut above: BTreeMap<u16, Vec<u16>> = BTreeMap::new();
    for (&key, places) in places {
        let nearest = |&place: &u16| tree.key_above(place).filter(|&other| other != key);
        above.insert(key, places.iter().filter_map(nearest).collect());
    }
    loop {
        let left = above.len();
        let keys: Vec<u16> = above.keys().copied().collect();
        for key in keys {
            if above[&key].iter().all(|other| !above.contains_key(other)) {
                above.remove(&key);
            }
        }
        if above.len() == left {
            return left > 0;
        }
    }
}
